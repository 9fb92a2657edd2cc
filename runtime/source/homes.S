# The pages of the processors, which home.h describes; shasta.ld puts them behind the heap.
        .section .homes, "aw", @nobits
        .balign 4096
        .globl  __shasta_homes
        .type   __shasta_homes, @object
        .size   __shasta_homes, 16 * 4096
__shasta_homes:
        .zero   16 * 4096
