/* Each processor takes a spin lock in rounds, and counts under it. */
#include "common.h"

#ifndef ROUNDS
#define ROUNDS 20000
#endif

static struct { unsigned held; } lock LINE;
static struct { volatile unsigned count; } under LINE;

static unsigned try_lock(void)
{
    unsigned held, failed;
    __asm__ volatile("1: lr.w %0, (%2)\n   bnez %0, 2f\n   sc.w %1, %3, (%2)\n   bnez %1, 1b\n2:"
                     : "=&r"(held), "=&r"(failed)
                     : "r"(&lock.held), "r"(1)
                     : "memory");
    return held == 0;
}

int main(int me, int count)
{
    for (unsigned k = 0; k < ROUNDS; k += 1) {
        while (!try_lock())
            ;
        under.count += 1;
        __atomic_store_n(&lock.held, 0, __ATOMIC_RELEASE);
    }
    meet((unsigned)count);
    (void)me;
    unsigned sum = 0;
    for (int k = 0; k < count; k += 1)
        sum += ROUNDS;
    return under.count == sum ? 0 : 1;
}
