# A loop for measuring speed, ADDI and BNE alone: counts t0 (x5) down to 0. Stops
# with ECALL after 150994945 instructions.

        lui  t0, 0x4800         # 0x4800000 = 75497472 turns
turn:   addi t0, t0, -1
        bne  t0, x0, turn
        ecall
