/* Adds 1/1, 1/2, 1/3 and so on up to 1/20 as exact fractions, by recursion.
 *
 * Ordinary C: products, quotients, remainders, and structs that are copied,
 * passed and returned by value. The sum is 55835135/15519504.
 */
#include <stdint.h>

#include "runtime.h"

#define TERMS 20

struct fraction {
    int64_t numerator, denominator;
};

/* A sum with what it is made of: 344 bytes, which are copied by memcpy. */
struct sum {
    struct fraction value;
    int64_t count;
    struct fraction terms[TERMS];
};

struct sum sums[TERMS + 1];

/* The greatest common divisor, by Euclid. */
static int64_t divisor(int64_t left, int64_t right)
{
    return right == 0 ? left : divisor(right, left % right);
}

static struct fraction reduced(int64_t numerator, int64_t denominator)
{
    int64_t common = divisor(numerator, denominator);
    struct fraction made = {numerator / common, denominator / common};
    return made;
}

static struct fraction plus(struct fraction left, struct fraction right)
{
    return reduced(left.numerator * right.denominator + right.numerator * left.denominator,
                   left.denominator * right.denominator);
}

/* The sum of the first terms, kept in its place of `sums`. */
__attribute__((noinline)) struct sum sum_of(int64_t count)
{
    struct sum made;
    if (count == 0) {
        memset(&made, 0, sizeof made);
        made.value.denominator = 1;
    } else {
        made = sum_of(count - 1);
        struct fraction term = {1, count};
        made.terms[made.count++] = term;
        made.value = plus(made.value, term);
    }
    sums[count] = made;
    return made;
}

/* a0 is the numerator, a1 the denominator. */
struct fraction main(void)
{
    struct sum whole = sum_of(TERMS);
    return memcmp(&whole, &sums[TERMS], sizeof whole) == 0 ? whole.value : (struct fraction){0, 0};
}
