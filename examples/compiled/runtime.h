/* What runtime.c has: the five functions that a compiler calls by itself, or
 * that C programs expect of <string.h>, which a bare compiler doesn't have.
 */
#ifndef RUNTIME_H
#define RUNTIME_H

#include <stddef.h>

void *memset(void *to, int byte, size_t count);
void *memcpy(void *restrict to, const void *restrict from, size_t count);
void *memmove(void *to, const void *from, size_t count);
int memcmp(const void *left, const void *right, size_t count);
size_t strlen(const char *text);

#endif
