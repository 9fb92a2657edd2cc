/* A lost update, for docs/TUTORIAL.md: each processor pays into an account, less a fee, without a lock;
   after a barrier processor 0 prints the balance. */
#include "bare.h"

enum { ROUNDS = 10, SUM = 100 };

/* Each in a line of memory of its own, 64 bytes. */
static unsigned balance __attribute__((aligned(64)));
static unsigned arrived __attribute__((aligned(64)));

/* A part in 25, by subtractions. */
__attribute__((noinline)) static unsigned fee_of(unsigned sum)
{
    unsigned fee = 0;
    for (unsigned rest = sum; rest >= 25; rest -= 25)
        fee += 1;
    return fee;
}

__attribute__((noinline)) static void pay_in(unsigned sum)
{
    unsigned old = balance;
    unsigned fee = fee_of(sum);
    balance = old + sum - fee;
}

/* Waits until so many processors have come here. */
static void meet(unsigned count)
{
    __atomic_add_fetch(&arrived, 1, __ATOMIC_ACQ_REL);
    while (__atomic_load_n(&arrived, __ATOMIC_ACQUIRE) != count)
        ;
}

int main(int me, int count)
{
    for (unsigned round = 0; round < ROUNDS; round += 1)
        pay_in(SUM);
    meet((unsigned)count);
    if (me == 0)
        print("balance", balance);
    return 0;
}
