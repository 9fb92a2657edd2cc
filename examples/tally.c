/* Of lesson 1 of docs/TUTORIAL.md: each processor adds up its part of the numbers 1 to 100 and adds this
   to a total, under a lock; after a barrier processor 0 prints the total. */
#include "bare.h"

enum { NUMBERS = 100 };

/* Each in a line of memory of its own, 64 bytes. */
static unsigned lock __attribute__((aligned(64)));
static unsigned arrived __attribute__((aligned(64)));
static unsigned total __attribute__((aligned(64)));

static void enter(void)
{
    while (__atomic_exchange_n(&lock, 1, __ATOMIC_ACQUIRE) != 0)
        ;
}

static void leave(void)
{
    __atomic_store_n(&lock, 0, __ATOMIC_RELEASE);
}

/* Waits until so many processors have come here. */
static void meet(unsigned count)
{
    __atomic_add_fetch(&arrived, 1, __ATOMIC_ACQ_REL);
    while (__atomic_load_n(&arrived, __ATOMIC_ACQUIRE) != count)
        ;
}

int main(int me, int count)
{
    unsigned own = 0;
    for (unsigned number = 1 + (unsigned)me; number <= NUMBERS; number += (unsigned)count)
        own += number;
    enter();
    total += own;
    leave();
    meet((unsigned)count);
    if (me == 0)
        print("total", total);
    return 0;
}
