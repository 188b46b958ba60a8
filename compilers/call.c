/* One call: what it is given, what it leaves. */
#include <string.h>

#include "blocks.h"

enum { ARGUMENTS = 48 };

static struct {
    const char *name;
    const void *at;     /* NULL for a number */
    size_t bytes;       /* .. which is here */
} given[ARGUMENTS];
static size_t count, spares;

bool showing;
digest sum;
uint64_t last_answer;

void call_begins(void)
{
    count = spares = 0;
    next_floats();
}

static void note(const char *name, const void *at, size_t bytes)
{
    given[count].name = name;
    given[count].at = at;
    given[count++].bytes = bytes;
}

void number_given(const char *name, uint64_t value)
{
    note(name, NULL, (size_t)value);
}

void *lend(const char *name, void *at, size_t bytes)
{
    note(name, at, bytes);
    return bytes == 0 && one_in(2) ? NULL : at;
}

void *spare(const char *name, const void *from, size_t bytes)
{
    uint64_t *at = the.spare + spares;
    spares += (bytes + 7) / 8;
    if (spares > sizeof the.spare / sizeof *the.spare)
        __builtin_trap();
    memset(at, 0xA5, (bytes + 7) / 8 * 8);
    if (from)
        memcpy(at, from, bytes);
    return lend(name, at, bytes);
}

/* Each argument on a line: a number, or the bytes of what is lent. */
static void show(const char *when, bool numbers)
{
    for (size_t i = 0; i < count; i++) {
        if (!given[i].at && !numbers)
            continue;
        text(when);
        text(given[i].name);
        text(" ");
        if (given[i].at)
            bytes_told(given[i].at, given[i].bytes);
        else
            decimal(given[i].bytes);
        text("\n");
    }
}

void arguments_end(void)
{
    if (showing)
        show("given ", true);
}

void answer(const void *result, size_t bytes)
{
    last_answer = 0;
    if (bytes)
        memcpy(&last_answer, result, bytes);
    mix(&sum, &last_answer, sizeof last_answer);
    for (size_t i = 0; i < count; i++)
        if (given[i].at)
            mix(&sum, given[i].at, given[i].bytes);
    if (showing) {
        text("answered ");
        decimal(last_answer);
        text("\n");
        show("left ", false);
    }
}
