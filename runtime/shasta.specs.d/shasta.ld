/* Where a program for shasta lies. Code, read-only data and shared data are segments of their own, and
   no two have a byte of one line of 64. Shared data begins at a multiple of 64 KiB, so the home of its
   first page is node 0 on 1, 2, 4, 8 and 16 nodes.

   By `-Wl,--defsym=NAME=BYTES`:
   __heap_size    how much memory malloc and sbrk hand out;
   __thread_stack_size  the stack of each thread but the first, 64 KiB where nothing is said;
   __stack_size   a stack in shared memory for processor 0; with 0 its stack lies in its private
                  window, as that of each other processor. Where nothing is said, a program that hands
                  work to other processors has 256 KiB, since what it hands on may be its own variable,
                  and any other program has 0. */
ENTRY(_start)
EXTERN(_start)

PHDRS
{
    code PT_LOAD FLAGS(5);
    constant PT_LOAD FLAGS(4);
    shared PT_LOAD FLAGS(6);
    stack PT_LOAD FLAGS(6);
    thread PT_TLS FLAGS(4);
}

__shasta_heap_size = DEFINED(__heap_size) ? __heap_size : 0x400000;
__shasta_thread_stack_size = DEFINED(__thread_stack_size) ? __thread_stack_size : 0x10000;
__shasta_stack_size = DEFINED(__stack_size) ? __stack_size : DEFINED(__shasta_wait) ? 0x40000 : 0;

/* The runtime's own data of each processor, at the top of its private window; below it lies the
   thread-local data, and below this the stack. */
__shasta_own = 0x7ffffc00;

SECTIONS
{
    .text 0x00010000 :
    {
        KEEP(*(.text.start))
        *(.text .text.*)
    } :code

    .rodata ALIGN(0x1000) :
    {
        *(.rodata .rodata.* .srodata .srodata.*)
        . = ALIGN(4);
        __preinit_array_start = .;
        KEEP(*(.preinit_array))
        __preinit_array_end = .;
        __init_array_start = .;
        KEEP(*(SORT_BY_INIT_PRIORITY(.init_array.*)))
        KEEP(*(.init_array))
        __init_array_end = .;
        __fini_array_start = .;
        KEEP(*(SORT_BY_INIT_PRIORITY(.fini_array.*)))
        KEEP(*(.fini_array))
        __fini_array_end = .;
    } :constant

    .tdata ALIGN(64) : { *(.tdata .tdata.*) } :constant :thread
    .tbss : { *(.tbss .tbss.*) } :constant :thread
    __shasta_thread_start = ADDR(.tdata);
    __shasta_thread_data = SIZEOF(.tdata);
    __shasta_thread_size = SIZEOF(.tdata) == 0 ? SIZEOF(.tbss) :
        SIZEOF(.tbss) == 0 ? SIZEOF(.tdata) : ADDR(.tbss) + SIZEOF(.tbss) - ADDR(.tdata);

    . = ALIGN(0x10000);
    .data : { *(.data .data.*) } :shared
    .sdata :
    {
        __global_pointer$ = . + 0x800;
        *(.sdata .sdata.*)
    } :shared
    .bss (NOLOAD) : { *(.sbss .sbss.* .bss .bss.* COMMON) } :shared
    .heap ALIGN(0x1000) (NOLOAD) :
    {
        __heap_start = .;
        . += __shasta_heap_size;
        __heap_end = .;
    } :shared
    .homes ALIGN(0x1000) (NOLOAD) : { *(.homes) } :shared

    /* Nothing lies below the stack, so a processor that uses it up ends by `access`. */
    __shasta_stack_end = 0x60001000;
    .stack __shasta_stack_end - __shasta_stack_size (NOLOAD) : { . += __shasta_stack_size; } :stack

    /DISCARD/ : { *(.eh_frame .comment) }
}
