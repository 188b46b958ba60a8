/* Blocks of calls, and what is asked of them. */
#include "blocks.h"

static unsigned weights;

static const drawn_call *drawn(void)
{
    if (!weights)
        for (size_t i = 0; i < CALL_COUNT; i++)
            weights += CALLS[i].weight;
    size_t at = below(weights), i = 0;
    while (at >= CALLS[i].weight)
        at -= CALLS[i++].weight;
    return &CALLS[i];
}

static void begin(uint64_t seed, uint64_t block)
{
    seeded(seed, block);
    new_world();
    sum = empty_digest();
}

static const drawn_call *next(void)
{
    change_world();
    call_begins();
    const drawn_call *call = drawn();
    call->make();
    return call;
}

/* Memory that no call was lent has to be the same too. */
static uint64_t end(void)
{
    mix(&sum, &the, sizeof the);
    return folded(&sum);
}

uint64_t block_digest(uint64_t seed, uint64_t block, uint32_t calls)
{
    begin(seed, block);
    for (uint32_t i = 0; i < calls; i++)
        next();
    return end();
}

static void told_digest(uint64_t d, const char *name)
{
    text(" ");
    hexadecimal(d, 16);
    text(" ");
    text(name);
    text("\n");
}

void each_digest(uint64_t seed, uint64_t block, uint32_t calls)
{
    begin(seed, block);
    for (uint32_t i = 0; i < calls; i++) {
        const drawn_call *call = next();
        decimal(i);
        told_digest(folded(&sum), call->name);
    }
    decimal(calls);
    told_digest(end(), "memory that is lent to no call");
}

void show_call(uint64_t seed, uint64_t block, uint32_t at)
{
    begin(seed, block);
    for (uint32_t i = 0; i < at; i++)
        next();
    showing = true;
    const drawn_call *call = next();
    showing = false;
    text("call ");
    text(call->name);
    text("\n");
}

void count_calls(uint64_t seed, uint64_t first, uint32_t blocks, uint32_t calls)
{
    static struct { uint64_t made, by[21]; } of[256];
    for (uint64_t b = first; b < first + blocks; b++) {
        begin(seed, b);
        for (uint32_t i = 0; i < calls; i++) {
            size_t which = (size_t)(next() - CALLS);
            of[which].made++;
            of[which].by[last_answer < 20 ? last_answer : 20]++;
        }
    }
    for (size_t i = 0; i < CALL_COUNT; i++) {
        text(CALLS[i].name);
        text(" ");
        decimal(of[i].made);
        for (unsigned k = 0; k < 21; k++) {
            if (!of[i].by[k])
                continue;
            text(k < 20 ? " " : " more");
            if (k < 20)
                decimal(k);
            text(":");
            decimal(of[i].by[k]);
        }
        text("\n");
    }
}
