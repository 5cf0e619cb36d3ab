# Loads and stores in order: a vector of 256 words is written to another one, each
# word raised by the number of the pass in s1 (x9). It doesn't end.

        lui  s0, 0x100          # the first vector: 0x100000
pass:   mv   t0, s0
        addi t1, x0, 256
        addi s1, s1, 1
item:   lw   t2, 0(t0)
        add  t2, t2, s1
        sw   t2, 1024(t0)
        add  s2, s2, t2
        addi t0, t0, 4
        addi t1, t1, -1
        bnez t1, item
        j    pass

.data
        .zero 2048
