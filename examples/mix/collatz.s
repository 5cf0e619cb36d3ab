# Branches: the Collatz steps of 1, 2, 3 and so on, counted in s1 (x9). It doesn't end.

number: addi s0, s0, 1
        mv   t0, s0
step:   addi t1, x0, 1
        beq  t0, t1, number
        addi s1, s1, 1
        andi t1, t0, 1
        bnez t1, odd
        srli t0, t0, 1
        j    step
odd:    slli t1, t0, 1          # 3 t0 + 1
        add  t0, t0, t1
        addi t0, t0, 1
        j    step
