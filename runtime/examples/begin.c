/* Each processor ends where `parallel` has brought it to its function, so a run has only the
   messages by which all begin. */
#include "shasta_short.h"

static void end_here(void *unused)
{
    (void)unused;
    register int code __asm__("a0") = 0;
    register int call __asm__("a7") = 93;
    __asm__ volatile("ecall" : : "r"(code), "r"(call));
}

int main(void)
{
    parallel(end_here, 0);
    return 0;
}
