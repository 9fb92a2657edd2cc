# Where each processor starts: a0 is its number, a1 the number of processors, sp the end of its own
# window of memory. It calls main and ends with what main gives.

        .section .text.start, "ax"
        .globl  _start
_start:
        .option push
        .option norelax
        lla     gp, __global_pointer$
        .option pop
        call    main
        li      a7, 93                  # exit
        ecall

        .text
        .globl  write_bytes
write_bytes:
        mv      a2, a1                  # length
        mv      a1, a0                  # address
        li      a0, 1                   # the output
        li      a7, 64                  # write
        ecall
        ret

        .globl  exit_with
exit_with:
        li      a7, 93
        ecall
