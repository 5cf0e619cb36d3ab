# Computes 3*3 + 4*4 into a0 (x10): 25. Stops with ECALL after 65 instructions.
#
# `jal ra, f` puts the address of the next instruction into ra (x1) and goes to
# f; `ret` goes back to it. A function that calls another one overwrites ra, so
# it must keep its own ra meanwhile: here in data, at `saved`.

        addi a0, x0, 3
        addi a1, x0, 4
        jal  ra, sum_of_squares
        ecall

# a0 = a0*a0 + a1*a1. It calls `square`, so it keeps its ra in data.
sum_of_squares:
        lui  s0, 0x100          # s0 = 0x100000, where data begins: `saved`
        sd   ra, 0(s0)
        mv   s1, a1             # `square` leaves s1 and s2 alone
        jal  ra, square         # ra is overwritten here
        mv   s2, a0
        mv   a0, s1
        jal  ra, square
        add  a0, a0, s2
        ld   ra, 0(s0)
        ret                     # written out: jalr x0, 0(x1)

# a0 = a0*a0 by adding a0 to itself a0 times. Plain RV64I has no multiply.
# It calls `add_to_t1` with t6 in place of ra, so ra needn't be kept.
square:
        mv   t0, a0
        mv   t1, x0
more:   beqz t0, done
        jal  t6, add_to_t1
        addi t0, t0, -1
        j    more               # written out: jal x0, more
done:   mv   a0, t1
        ret

# t1 = t1 + a0, for callers that put the way back into t6.
add_to_t1:
        add  t1, t1, a0
        jr   t6                 # written out: jalr x0, 0(t6)

.data
saved:  .dword 0                # ra of sum_of_squares while it calls square
