# A call in three instructions: rounds without an end in sight of a call and a return.
        lui     x6, 0x7ffff
        addi    x7, x0, 0
        jal     x0, round
leaf:   addi    x7, x7, 1
        jalr    x0, 0(x1)
round:  jal     x1, leaf
        bne     x7, x6, round
        addi    x10, x0, 0
        addi    x17, x0, 93
        ecall
