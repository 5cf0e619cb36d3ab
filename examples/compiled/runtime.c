/* The functions of <string.h> that a program needs most. A compiler calls
 * memcpy and memset by itself, to copy and to clear structs and arrays.
 *
 * They go byte by byte, and by doublewords where both addresses allow it.
 */
#include "runtime.h"

#include <stdint.h>

/* GCC would make calls of memset out of the loop in memset, and so on. */
#if defined(__GNUC__) && !defined(__clang__)
#pragma GCC optimize("no-tree-loop-distribute-patterns")
#endif

/* A doubleword that may stand where bytes of any type do. */
typedef uint64_t __attribute__((may_alias)) doubleword;

/* Whether both addresses are multiples of 8. */
static int are_aligned(const void *left, const void *right)
{
    return (((uintptr_t)left | (uintptr_t)right) & 7) == 0;
}

void *memset(void *to, int byte, size_t count)
{
    unsigned char *at = to;
    while (count != 0) {
        *at++ = (unsigned char)byte;
        count--;
    }
    return to;
}

void *memcpy(void *restrict to, const void *restrict from, size_t count)
{
    unsigned char *at = to;
    const unsigned char *source = from;
    if (are_aligned(to, from)) {
        while (count >= 8) {
            *(doubleword *)at = *(const doubleword *)source;
            at += 8;
            source += 8;
            count -= 8;
        }
    }
    while (count != 0) {
        *at++ = *source++;
        count--;
    }
    return to;
}

void *memmove(void *to, const void *from, size_t count)
{
    unsigned char *at = to;
    const unsigned char *source = from;
    if ((uintptr_t)to - (uintptr_t)from >= count)
        return memcpy(to, from, count);
    while (count != 0) {
        count--;
        at[count] = source[count];
    }
    return to;
}

int memcmp(const void *left, const void *right, size_t count)
{
    const unsigned char *one = left;
    const unsigned char *other = right;
    for (size_t place = 0; place < count; place++) {
        if (one[place] != other[place])
            return one[place] < other[place] ? -1 : 1;
    }
    return 0;
}

size_t strlen(const char *text)
{
    size_t length = 0;
    while (text[length] != 0)
        length++;
    return length;
}
