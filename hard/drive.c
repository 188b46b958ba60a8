/* Runs the checks outside the fuzzer, for AddressSanitizer and valgrind:
 *
 *     drive [-s SECTION].. [-v VECTORS].. [-i INPUT].. [-r ROUND]..
 *
 * -s a file that is a system section, with some scripts; -v a vectors file; -i an input of the fuzz target; -r any
 * bytes as a round file. */
#include "drive.h"

static unsigned long answers;

void seen(unsigned what, uint32_t number, size_t place)
{
    (void)what;
    (void)number;
    (void)place;
    answers++;
}

static uint8_t *whole_file(const char *name, size_t *n)
{
    FILE *f = fopen(name, "rb");
    if (!f) {
        perror(name);
        exit(EXIT_FAILURE);
    }
    uint8_t *bytes = malloc(1 << 24);
    CHECK(bytes);
    *n = fread(bytes, 1, 1 << 24, f);
    fclose(f);
    return bytes;
}

/* The section under a script of so many bytes, made from a seed. */
static void with_script(const uint8_t *section, size_t n, uint16_t length, uint32_t seed)
{
    uint8_t *input = malloc(4 + length + n);
    CHECK(input);
    memcpy(input, (uint8_t[]){ (uint8_t)length, (uint8_t)(length >> 8), 0, 0 }, 4);
    for (size_t i = 0; i < length; i++) {
        seed = seed * 1664525u + 1013904223u;
        input[4 + i] = (uint8_t)(seed >> 24);
    }
    memcpy(input + 4 + length, section, n);
    check_input(input, 4 + length + n);
    free(input);
}

int main(int argc, char **argv)
{
    unsigned long inputs = 0, vectors = 0;
    every_call();
    for (int i = 1; i + 1 < argc; i += 2) {
        size_t n;
        uint8_t *bytes = whole_file(argv[i + 1], &n);
        if (argv[i][1] == 'v') {
            vectors += replay(bytes, n);
        } else if (argv[i][1] == 's') {
            for (uint32_t seed = 0; seed < 8; seed++, inputs++)
                with_script(bytes, n, (uint16_t)(seed * 60), seed);
        } else {
            (argv[i][1] == 'r' ? check_round_file : check_input)(bytes, n);
            inputs++;
        }
        free(bytes);
    }
    printf("%lu inputs, %lu answers, %lu vectors agree\n", inputs, answers, vectors);
    return EXIT_SUCCESS;
}
