/* What a deep recursion does to a table in memory: nothing.
 *
 * The table holds 4096 ones. Each call takes more than 256 bytes of stack.
 * 100 calls fit in its 64 KiB, and the sum of the table in a0 is 4096. With
 * -DDEPTH=4000 they don't fit: the program stops with cause 7, as it stores
 * below the stack, where nothing is mapped.
 */
#ifndef DEPTH
#define DEPTH 100
#endif

#define ONES 4096

volatile unsigned char table[ONES];

/* The sum of 1 to `depth`. Each call counts in its own room, and the next one adds to it. */
__attribute__((noinline)) void descend(long depth, volatile long *sum)
{
    volatile long room[32];
    room[depth & 31] = 0;
    if (depth != 0)
        descend(depth - 1, &room[depth & 31]);
    *sum = room[depth & 31] + depth;
}

/* a0 is the sum of the table, a1 that of the depths. */
struct result {
    unsigned long ones;
    long depths;
} main(void)
{
    struct result result = {0, 0};
    volatile long depths = 0;
    for (int place = 0; place < ONES; place++)
        table[place] = 1;
    descend(DEPTH, &depths);
    result.depths = depths;
    for (int place = 0; place < ONES; place++)
        result.ones += table[place];
    return result;
}
