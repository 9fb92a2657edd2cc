/* From a processor's start to main, and to its end. */
#include "own.h"

#include <signal.h>
#include <stdint.h>
#include <unistd.h>

/* The image of the thread-local data, how many bytes it has, and how many there are with those
   that are 0 at the start. The last two are numbers in the form of addresses; weak, since they
   may be 0. */
extern const unsigned char __shasta_thread_start[];
extern const unsigned char __shasta_thread_data[] __attribute__((weak));
extern const unsigned char __shasta_thread_size[] __attribute__((weak));

void __libc_init_array(void);

/* The words by which main is called, the program's own or those of arguments.c. */
extern char *program_arguments[];

int main(int count, char **words, char **environment);

void __shasta_thread_data_anew(void)
{
    unsigned char *to;
    __asm__("mv %0, tp" : "=r"(to));
    for (uintptr_t k = 0; k < (uintptr_t)__shasta_thread_data; k += 1)
        to[k] = __shasta_thread_start[k];
    for (uintptr_t k = (uintptr_t)__shasta_thread_data; k < (uintptr_t)__shasta_thread_size; k += 1)
        to[k] = 0;
}

static _Noreturn void run_program(void)
{
    static char *no_environment[] = {0};
    int count = 0;
    while (program_arguments[count] != 0)
        count += 1;
    __libc_init_array();
    exit(main(count, program_arguments, no_environment));
}

/* Processor 0 runs the program; the others wait for what it hands on, or have nothing to do. */
_Noreturn void __shasta_begin(unsigned number, unsigned count)
{
    own.number = number;
    own.count = count;
    __shasta_find_home();
    if (number == 0)
        run_program();
    if (__shasta_wait)
        __shasta_wait();
    __shasta_end(0);
}

_Noreturn void __shasta_end(int code)
{
    __shasta_flush();
    register int value __asm__("a0") = code;
    register int call __asm__("a7") = 93;
    for (;;)
        __asm__ volatile("ecall" : "+r"(value) : "r"(call) : "memory");
}

/* Ends the program, whichever processor calls it: the others end when they wait, or have done what
   they do. */
_Noreturn void _exit(int code)
{
    if (__shasta_tell_end)
        __shasta_tell_end(code);
    __shasta_end(code);
}

/* Writes without a lock, which may be spoiled. */
static void write_now(const char *text)
{
    register int file __asm__("a0") = 1;
    register const char *from __asm__("a1") = text;
    register unsigned count __asm__("a2") = 0;
    register int call __asm__("a7") = 64;
    while (text[count] != 0)
        count += 1;
    __asm__ volatile("ecall" : "+r"(file) : "r"(from), "r"(count), "r"(call) : "memory");
}

_Noreturn void __shasta_fail(const char *why)
{
    write_now(why);
    own.length = 0;
    _exit(128 + SIGABRT);
}
