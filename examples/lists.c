/* A yard with its five lists as one struct (bofrashem_lists.h), in C or C++: counts FILE's entries, reads it into one
 * block of memory, walks, renumbers, writes it, and puts it into a set and takes it out again.
 *
 *     lists FILE
 *
 * FILE holds the system section of a cell (graphics empty). */
#include <stdio.h>
#include <stdlib.h>
#include <string.h>

#include "bofrashem_lists.h"

enum { CHOICES = 8, MEMORY_MOST = 1 << 24 };

static uint8_t section[65536 * 8], written[65536 * 8];
static uint32_t scratch[YND_SCRATCH], places[YND_NODES_MOST];

/* Ends the program where a call was refused. */
static void accepted(const char *what, uint32_t number, const size_t *place)
{
    char text[YND_TEXT_MOST];
    if (number == YND_ACCEPTED)
        return;
    (void)ynd_refusal_text(number, text, sizeof text);
    printf("%s: refused %u %lu, %s\n", what, (unsigned)number, (unsigned long)*place, text);
    exit(EXIT_FAILURE);
}

/* Lists of so many entries in a block of our own. */
static ynd_lists lend(const ynd_counts *counts)
{
    void *memory = malloc(ynd_lists_bytes(counts) + 1);
    if (memory == NULL)
        exit(EXIT_FAILURE);
    return ynd_lists_in(memory, counts);
}

/* A walk of the first link each time; returns how many places it visits. */
static size_t walk(const ynd_cell *cell, const ynd_lists *lists, size_t start, uint32_t visited[CHOICES + 1])
{
    const uint8_t first[CHOICES] = { 0 };
    ynd_walk_end end;
    size_t count, place;
    const uint32_t number =
        ynd_lists_walk(cell, lists, start, first, CHOICES, visited, CHOICES + 1, &end, &count, &place);
    accepted("walk", number, &place);
    return count;
}

/* Walks from place 0, renumbers, and walks from where its node is now: each place is that of before, moved. */
static void renumbered(ynd_cell *cell, const ynd_lists *lists)
{
    uint32_t before[CHOICES + 1], after[CHOICES + 1];
    size_t place, count = walk(cell, lists, 0, before), same = 0;
    const uint32_t number =
        ynd_lists_renumber(cell, lists, scratch, YND_SCRATCH, places, YND_NODES_MOST, &place);
    accepted("renumber", number, &place);
    if (walk(cell, lists, places[0], after) == count)
        while (same < count && after[same] == places[before[same]])
            same++;
    printf("a walk visits %lu places, %lu of them the same after renumbering\n", (unsigned long)count,
        (unsigned long)same);
}

/* The cell joins a set of one and is handed back: it is written as the same bytes. */
static void through_a_set(const ynd_cell *cell, const ynd_lists *lists, const ynd_counts *counts, size_t length)
{
    ynd_member member;
    ynd_cell back;
    size_t members = 0, again, place;
    const ynd_lists set = lend(counts), to = lend(counts);
    const uint16_t area = lists->nodes_len > 0 ? lists->nodes[0].area_id : 0;
    accepted("join", ynd_lists_set_join(&members, &member, 1, &set, cell, lists, counts, &place), &place);
    accepted("hand back", ynd_lists_set_hand_back(&member, members, &set, area, &back, &to, &place), &place);
    accepted("write", ynd_lists_write(&back, &to, section, sizeof section, &again, &place), &place);
    puts(again == length && memcmp(section, written, length) == 0 ? "out of a set it is the same" : "it is another");
    free(set.nodes);
    free(to.nodes);
}

int main(int argc, char **argv)
{
    FILE *file = argc == 2 ? fopen(argv[1], "rb") : NULL;
    ynd_counts counts;
    ynd_cell cell;
    ynd_addresses addresses;
    size_t place, total, length, read;
    if (file == NULL) {
        fputs("usage: lists FILE\n", stderr);
        return EXIT_FAILURE;
    }
    read = fread(section, 1, sizeof section, file);
    fclose(file);
    accepted("count", ynd_count(section, read, NULL, 0, &counts, &place), &place);
    if (ynd_lists_bytes(&counts) > MEMORY_MOST) {
        puts("it asks for too much memory");
        return EXIT_FAILURE;
    }
    const ynd_lists lists = lend(&counts);
    accepted("read", ynd_lists_read(&cell, section, read, NULL, 0, &lists, &place), &place);
    printf("%s: nodes %lu links %lu junctions %lu refs %lu\n", argv[1], (unsigned long)counts.nodes,
        (unsigned long)counts.links, (unsigned long)counts.junctions, (unsigned long)counts.refs);
    if (counts.nodes > 0)
        renumbered(&cell, &lists);
    accepted("lay out", ynd_lists_lay_out(&counts, &addresses, &total, &place), &place);
    accepted("write", ynd_lists_write(&cell, &lists, written, sizeof written, &length, &place), &place);
    printf("written in %lu bytes of %lu\n", (unsigned long)length, (unsigned long)total);
    through_a_set(&cell, &lists, &counts, length);
    free(lists.nodes);
    return EXIT_SUCCESS;
}
