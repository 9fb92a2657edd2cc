/* Processor 0 computes, the others wait for it. */
#include "common.h"

enum { ROUNDS = 5000000 };

static struct { unsigned over; } end LINE;

int main(int me, int count)
{
    (void)count;
    if (me != 0) {
        while (!__atomic_load_n(&end.over, __ATOMIC_ACQUIRE))
            ;
        return 0;
    }
    for (volatile unsigned k = 0; k < ROUNDS; k += 1)
        ;
    __atomic_store_n(&end.over, 1, __ATOMIC_RELEASE);
    return 0;
}
