/* The textbook race: each processor adds 1 to one counter a thousand times, and takes no lock. After a
   barrier processor 0 prints the counter. */
#include "bare.h"

enum { ROUNDS = 1000 };

/* Each in a line of memory of its own, 64 bytes. */
static volatile unsigned hits __attribute__((aligned(64)));
static unsigned arrived __attribute__((aligned(64)));

/* Waits until `count` processors have come here. */
static void meet(unsigned count)
{
    __atomic_add_fetch(&arrived, 1, __ATOMIC_ACQ_REL);
    while (__atomic_load_n(&arrived, __ATOMIC_ACQUIRE) != count)
        ;
}

int main(int me, int count)
{
    for (unsigned round = 0; round < ROUNDS; round += 1)
        hits = hits + 1;
    meet((unsigned)count);
    if (me == 0)
        print("hits", hits);
    return 0;
}
