# Arithmetic, and loads and stores out of order: each number of a xorshift generator
# is added to one of 256 doublewords; s2 (x18) counts the sums that wrap. It doesn't end.

        lui  s0, 0x100          # the table: 0x100000
        addi s1, x0, 1          # the generator's number
next:   slli t0, s1, 13
        xor  s1, s1, t0
        srli t0, s1, 7
        xor  s1, s1, t0
        slli t0, s1, 17
        xor  s1, s1, t0
        andi t1, s1, 2040
        add  t1, t1, s0
        ld   t2, 0(t1)
        add  t2, t2, s1
        sltu t3, t2, s1
        add  s2, s2, t3
        sd   t2, 0(t1)
        j    next

.data
        .zero 2048
