/* Products and quotients for clang, which has no library for a bare RV64I.
 *
 * Plain RV64I has no instruction that multiplies or divides, so a compiler
 * calls these. GCC has its own in libgcc (`-lgcc`). A quotient by 0 is nothing
 * that a program may ask for: here all of its bits are set.
 */
#include <stdint.h>

typedef struct {
    uint64_t quotient, remainder;
} division;

/* The low 64 bits of the product, signed or not: a turn for each bit of the lesser one. */
int64_t __muldi3(int64_t left, int64_t right)
{
    uint64_t term = (uint64_t)left;
    uint64_t rest = (uint64_t)right;
    uint64_t product = 0;
    if (term < rest) {
        term = (uint64_t)right;
        rest = (uint64_t)left;
    }
    while (rest != 0) {
        if (rest & 1)
            product += term;
        term <<= 1;
        rest >>= 1;
    }
    return (int64_t)product;
}

/* Quotient and remainder: a turn for each bit of the quotient. */
static division divided(uint64_t left, uint64_t right)
{
    division found = {0, left};
    uint64_t bit = 1;
    if (right == 0) {
        found.quotient = ~0ull;
        return found;
    }
    while (right < left && right >> 63 == 0) {
        right <<= 1;
        bit <<= 1;
    }
    while (bit != 0) {
        if (found.remainder >= right) {
            found.remainder -= right;
            found.quotient |= bit;
        }
        right >>= 1;
        bit >>= 1;
    }
    return found;
}

uint64_t __udivdi3(uint64_t left, uint64_t right)
{
    return divided(left, right).quotient;
}

uint64_t __umoddi3(uint64_t left, uint64_t right)
{
    return divided(left, right).remainder;
}

/* The value without its sign. */
static uint64_t size_of(int64_t value)
{
    return value < 0 ? -(uint64_t)value : (uint64_t)value;
}

/* Towards 0, as C has it. */
int64_t __divdi3(int64_t left, int64_t right)
{
    uint64_t quotient = divided(size_of(left), size_of(right)).quotient;
    return (int64_t)((left < 0) != (right < 0) ? -quotient : quotient);
}

/* With the sign of the left one, as C has it. */
int64_t __moddi3(int64_t left, int64_t right)
{
    uint64_t remainder = divided(size_of(left), size_of(right)).remainder;
    return (int64_t)(left < 0 ? -remainder : remainder);
}
