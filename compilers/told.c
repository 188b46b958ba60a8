/* Text without the C library, so that the module for WebAssembly needs none. */
#include "agree.h"

void text(const char *s)
{
    size_t n = 0;
    while (s[n])
        n++;
    told(s, n);
}

void decimal(uint64_t v)
{
    char digits[20];
    size_t n = sizeof digits;
    do
        digits[--n] = (char)('0' + v % 10);
    while (v /= 10);
    told(digits + n, sizeof digits - n);
}

void hexadecimal(uint64_t v, unsigned digits)
{
    char out[16];
    for (unsigned i = digits; i-- > 0; v >>= 4)
        out[i] = "0123456789abcdef"[v & 15];
    told(out, digits);
}

void bytes_told(const void *from, size_t n)
{
    const uint8_t *at = from;
    for (size_t i = 0; i < n; i++) {
        if (i > 0 && i % 4 == 0)
            text(" ");
        hexadecimal(at[i], 2);
    }
}
