/* The first two processors hand a turn to one another; the others wait for the end. */
#include "common.h"

#ifndef TURNS
#define TURNS 20000
#endif

static struct { unsigned turn; } hand LINE;
static struct { unsigned over; } end LINE;

int main(int me, int count)
{
    if (count == 1)
        return 0;
    if (me > 1) {
        while (!__atomic_load_n(&end.over, __ATOMIC_ACQUIRE))
            ;
        return 0;
    }
    for (unsigned turn = (unsigned)me; turn < TURNS; turn += 2) {
        while (__atomic_load_n(&hand.turn, __ATOMIC_ACQUIRE) != turn)
            ;
        __atomic_store_n(&hand.turn, turn + 1, __ATOMIC_RELEASE);
    }
    if (me == 1)
        __atomic_store_n(&end.over, 1, __ATOMIC_RELEASE);
    return 0;
}
