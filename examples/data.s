# Adds data of every width up into a0 (x10): 3000010006. Stops with ECALL after
# 24 instructions.
#
# Data begins at 0x100000. It is laid out in the order of the lines, least byte
# first, and nothing is aligned by itself, but a load or store must be: its
# address must be a multiple of its width, or the context stops (cause 4 or 6).
# So the widest come first here. One number stands in a directive.
#
# A label in data names an address, yet no instruction takes it as a number:
# there is no `la` or `li`. Addresses are made by `lui` and `addi`: lui puts its
# number, times 4096, into the register, and addi adds -2048 to 2047. Loads and
# stores add such a number by themselves, so one base register reaches far.

        lui  s0, 0x100          # s0 = 0x100000: `big`
        ld   t0, 0(s0)          # big: 10000
        add  a0, a0, t0
        lw   t0, 16(s0)         # signed: -1
        add  a0, a0, t0
        lwu  t0, 20(s0)         # unsigned: 3000000000
        add  a0, a0, t0
        lh   t0, 24(s0)         # signed: -300
        add  a0, a0, t0
        lhu  t0, 26(s0)         # unsigned: 300
        add  a0, a0, t0
        lb   t0, 28(s0)         # signed: -3
        add  a0, a0, t0
        lbu  t0, 29(s0)         # unsigned: 10
        add  a0, a0, t0
        addi s1, s0, 8          # s1 = 0x100008: `sum`
        sd   a0, 0(s1)

# The same widths again as stores, into the zeros from `room` on: 0x100800 is
# 0x101000 - 2048.
        lui  s2, 0x101
        addi s2, s2, -2048      # s2 = 0x100800: `room`
        sw   a0, 0(s2)          # the low four bytes of a0
        sh   a0, 4(s2)          # the low two
        sb   a0, 6(s2)          # the lowest
        lwu  a1, 0(s2)          # the sum fits in 32 bits unsigned, so a1 = a0
        lbu  a2, 6(s2)          # the sum's lowest byte
        ecall

.data
big:    .dword 10000            # 0x100000
sum:    .dword 0                # 0x100008
        .word -1                # 0x100010
        .word 3000000000        # 0x100014; -2147483648 to 4294967295 are allowed
        .half -300              # 0x100018
        .half 300               # 0x10001a
        .byte -3                # 0x10001c
        .byte 0x0A              # 0x10001d
        .zero 2018              # 0x10001e to 0x1007ff
room:   .zero 8                 # 0x100800
