/* For the module alone (compilers/module.c), which has no C library. */
#ifndef COMPILERS_STRING_H
#define COMPILERS_STRING_H

#include <stddef.h>

void *memcpy(void *restrict to, const void *restrict from, size_t n);
void *memmove(void *to, const void *from, size_t n);
void *memset(void *to, int v, size_t n);

#endif
