/* The driver as a WebAssembly module: it imports the library's calls and memory from the library's own module, and
 * text goes to the host (compilers/module.mjs). No C library: what the compiler asks for is below. */
#include "agree.h"

__attribute__((import_module("host"), import_name("text"))) void host_text(const char *text, size_t n);

void told(const char *text, size_t n)
{
    host_text(text, n);
}

__attribute__((export_name("digest"))) uint64_t digest_of(uint64_t seed, uint64_t block, uint32_t calls)
{
    return block_digest(seed, block, calls);
}

__attribute__((export_name("each"))) void each(uint64_t seed, uint64_t block, uint32_t calls)
{
    each_digest(seed, block, calls);
}

__attribute__((export_name("show"))) void show(uint64_t seed, uint64_t block, uint32_t at)
{
    show_call(seed, block, at);
}

void *memcpy(void *restrict to, const void *restrict from, size_t n)
{
    unsigned char *t = to;
    for (const unsigned char *f = from; n > 0; n--)
        *t++ = *f++;
    return to;
}

void *memmove(void *to, const void *from, size_t n)
{
    unsigned char *t = to;
    const unsigned char *f = from;
    if (t < f)
        return memcpy(to, from, n);
    while (n-- > 0)
        t[n] = f[n];
    return to;
}

void *memset(void *to, int v, size_t n)
{
    for (unsigned char *t = to; n > 0; n--)
        *t++ = (unsigned char)v;
    return to;
}
