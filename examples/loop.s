# Sums 1 to 100 into a0 (x10): 5050. Stops with ECALL after 302 instructions.
#
# All registers are 0 at the start, and the first instruction stands at 0x10000.
# A line holds at most one label (`name:`) and at most one instruction.

        addi a0, x0, 0          # the sum
        addi t0, x0, 100        # the next number to add; x0 always reads 0
next:   add  a0, a0, t0
        addi t0, t0, -1
        bnez t0, next           # written out: bne t0, x0, next
        ecall                   # stops the context; it isn't counted
