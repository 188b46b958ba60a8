/* Memory lent to the calls under test: each block ends where a page ends that may not be touched, or, with HARD_HEAP, is a heap
 * block of exactly its size, so that valgrind or AddressSanitizer watch its ends. */
#ifndef HARD_LENT_H
#define HARD_LENT_H

#include <stdio.h>
#include <stdlib.h>
#include <string.h>

#include "bofrashem.h"

#define CHECK(test) \
    do { \
        if (!(test)) { \
            fprintf(stderr, "%s:%d: %s\n", __FILE__, __LINE__, #test); \
            abort(); \
        } \
    } while (0)

enum { KEPT = 0xA5 };
#define KEPT_SIZE ((size_t)0xA5A5A5A5A5A5A5A5u)

/* A block of so many bytes, filled with KEPT. */
void *block(size_t bytes);
/* A block with this content. */
void *block_of(const void *from, size_t bytes);
/* Gives a block back; its surroundings have to be as they were. */
void unblock(void *p, size_t bytes);

/* A cell with five lists, each in a block of its own. */
typedef struct {
    ynd_cell *ynd;
    ynd_node_entry *nodes;
    ynd_link_entry *links;
    ynd_junction_entry *junctions;
    uint8_t *heights;
    ynd_ref_entry *refs;
    size_t n, l, j, h, r;
} lent;

lent lend(size_t n, size_t l, size_t j, size_t h, size_t r);
lent lend_copy(const lent *m);
/* The same cell and content in lists of other lengths; what is new holds KEPT. */
lent lend_more(const lent *m, size_t n, size_t l, size_t j, size_t h, size_t r);
void unlend(lent *m);
bool same_lent(const lent *a, const lent *b);

/* The arguments of the lists, in the order of the calls. */
#define NODES(m) (m)->nodes, (m)->n
#define LINKS(m) (m)->links, (m)->l
#define JUNCTIONS(m) (m)->junctions, (m)->j
#define HEIGHTS(m) (m)->heights, (m)->h
#define REFS(m) (m)->refs, (m)->r
#define LISTS(m) NODES(m), LINKS(m), JUNCTIONS(m), HEIGHTS(m), REFS(m)

/* All checks of hard/check.c on one input; returns a number that tells apart what the calls answered. */
void check_input(const uint8_t *data, size_t size);
/* Called with each answer: what was called, number, place. */
void seen(unsigned what, uint32_t number, size_t place);

#endif
