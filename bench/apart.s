# Loads and stores, by each processor in a line of its own: rounds without an end in sight of lw, sw
# and a branch on shared memory.
        lui     x5, 0x20
        slli    x11, x10, 6
        add     x5, x5, x11
        lui     x6, 0x7ffff
        addi    x7, x0, 0
round:  lw      x8, 0(x5)
        addi    x8, x8, 1
        sw      x8, 0(x5)
        addi    x7, x7, 1
        bne     x7, x6, round
        addi    x10, x0, 0
        addi    x17, x0, 93
        ecall
