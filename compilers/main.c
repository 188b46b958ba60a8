/* The driver as a program:
 *
 *     agree digests SEED FIRST BLOCKS CALLS    a line for each block: its number, its digest
 *     agree each SEED BLOCK CALLS              a line for each call of a block: its place, the digest so far, its name
 *     agree show SEED BLOCK AT                 what the call at a place was given, answered and left
 *     agree count SEED FIRST BLOCKS CALLS      how often each call was made, and with which number it was refused */
#include <inttypes.h>
#include <stdio.h>
#include <stdlib.h>
#include <string.h>

#include "agree.h"

void told(const char *text, size_t n)
{
    fwrite(text, 1, n, stdout);
}

int main(int argc, char **argv)
{
    uint64_t words[4] = { 0 };
    for (int i = 2; i < argc && i < 6; i++)
        words[i - 2] = strtoull(argv[i], NULL, 10);
    const char *what = argc > 1 ? argv[1] : "";
    if (strcmp(what, "digests") == 0 && argc == 6) {
        for (uint64_t b = words[1]; b < words[1] + words[2]; b++) {
            printf("%" PRIu64 " %016" PRIx64 "\n", b, block_digest(words[0], b, (uint32_t)words[3]));
            fflush(stdout);
        }
    } else if (strcmp(what, "each") == 0 && argc == 5) {
        each_digest(words[0], words[1], (uint32_t)words[2]);
    } else if (strcmp(what, "show") == 0 && argc == 5) {
        show_call(words[0], words[1], (uint32_t)words[2]);
    } else if (strcmp(what, "count") == 0 && argc == 6) {
        count_calls(words[0], words[1], (uint32_t)words[2], (uint32_t)words[3]);
    } else {
        fprintf(stderr, "agree digests|count SEED FIRST BLOCKS CALLS, agree each|show SEED BLOCK CALLS\n");
        return EXIT_FAILURE;
    }
    return EXIT_SUCCESS;
}
