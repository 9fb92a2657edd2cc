# Loads of read-only memory: rounds without an end in sight of two loads of the code's own words.
        lui     x5, 0x10
        lui     x6, 0x7ffff
        addi    x7, x0, 0
round:  lw      x8, 0(x5)
        lw      x9, 4(x5)
        addi    x7, x7, 1
        bne     x7, x6, round
        addi    x10, x0, 0
        addi    x17, x0, 93
        ecall
