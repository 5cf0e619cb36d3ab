# A loop for measuring speed: seven instructions a turn, one load and one store
# among them. t1 (x6) ends as 891443901696. Stops with ECALL after 149553154
# instructions.
#
# The turns are numbered downwards from 21364736 in t0. Each adds its number to
# one of 256 doublewords, which eight turns in succession share. t1 is the last
# sum: doubleword 0's.

        lui  s0, 0x100          # the table: 0x100000
        lui  t0, 0x1460         # 0x1460000 = 21364736 turns
turn:   andi t2, t0, 2040       # an offset in the table, a multiple of 8
        add  t2, t2, s0
        ld   t1, 0(t2)
        add  t1, t1, t0
        sd   t1, 0(t2)
        addi t0, t0, -1
        bnez t0, turn
        ecall

.data
        .zero 2048              # 256 doublewords
