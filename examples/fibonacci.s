# Computes the 90th Fibonacci number into a0 (x10): 2880067194370816120.
# Stops with ECALL after 452 instructions.
#
# Counted from 0 the numbers are 0, 1, 1, 2, 3, 5 and so on. a0 and a1 hold two
# neighbours, and each turn moves on by one.

        addi a1, x0, 1          # a0 is 0 at the start: the pair (0, 1)
        addi t0, x0, 90         # turns to go
turn:   add  t1, a0, a1         # the pair (a0, a1) becomes (a1, a0 + a1)
        mv   a0, a1
        mv   a1, t1
        addi t0, t0, -1
        bnez t0, turn
        ecall
