# A counting loop: rounds without an end in sight of three instructions, none of which accesses memory.
        lui     x6, 0x7ffff
        addi    x7, x0, 0
round:  addi    x8, x7, 5
        addi    x7, x7, 1
        bne     x7, x6, round
        addi    x10, x0, 0
        addi    x17, x0, 93
        ecall
