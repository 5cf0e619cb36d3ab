# Calls: the moves of a tower of ten discs, again and again, counted in s0 (x8). It
# doesn't end.

        lui  sp, 0x101          # the stack is the data page, from its end down
again:  addi a0, x0, 10
        jal  ra, hanoi
        j    again
hanoi:  beqz a0, moved
        addi sp, sp, -16
        sd   ra, 0(sp)
        sd   a0, 8(sp)
        addi a0, a0, -1
        jal  ra, hanoi
        addi s0, s0, 1
        ld   a0, 8(sp)
        addi a0, a0, -1
        jal  ra, hanoi
        ld   ra, 0(sp)
        addi sp, sp, 16
moved:  ret

.data
        .zero 4096
