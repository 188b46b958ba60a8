/* The libFuzzer targets: a cell under a script, or with FUZZ_ROUNDS any bytes as a round file. The archive is not
 * instrumented, so what its calls answer (which call, number, place) is counted instead. */
#include "check.h"

__attribute__((section("__libfuzzer_extra_counters"))) static uint8_t answers[WHATS * 32 * 32];

void seen(unsigned what, uint32_t number, size_t place)
{
    answers[(what * 32 + number) * 32 + (place < 31 ? place : 31)]++;
}

int LLVMFuzzerTestOneInput(const uint8_t *data, size_t size);
int LLVMFuzzerTestOneInput(const uint8_t *data, size_t size)
{
#ifdef FUZZ_ROUNDS
    check_round_file(data, size);
#else
    check_input(data, size);
#endif
    return 0;
}
