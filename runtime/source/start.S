# Where each processor starts: a0 is its number, a1 the number of processors, sp the end of its own
# window of memory, which is all zeros. Its thread-local data is made there, and its stack grows down
# from it; both may lie in shared memory for processor 0.

        .cfi_sections .debug_frame
        .section .text.start, "ax"
        .globl  _start
        .type   _start, @function
_start:
        .cfi_startproc
        .cfi_undefined ra
        .option push
        .option norelax
        la      gp, __global_pointer$
        .option pop
        la      t0, __shasta_own
        bnez    a0, data
        la      t1, __shasta_stack_size
        beqz    t1, data
        la      t0, __shasta_stack_end
data:   la      t1, __shasta_thread_size
        sub     tp, t0, t1
        andi    tp, tp, -64
        mv      sp, tp
        mv      s0, a0
        mv      s1, a1
        call    __shasta_thread_data_anew
        mv      a0, s0
        mv      a1, s1
        call    __shasta_begin
        .cfi_endproc
        .size   _start, . - _start

# So the linker looks for printf and its kin in this library before the C library. Nothing reaches
# this section, so it isn't linked.
        .section .unused, "a"
        .word   vfprintf, __i_vfprintf, vfscanf, __i_vfscanf, strtod, strtof, strtold
