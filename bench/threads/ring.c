/* A number goes round all processors: each stores it in a line of its own, which the next one waits for. */
#include "common.h"

enum { ROUNDS = 2000 };

static struct {
    unsigned number LINE;
} mail[16];

int main(int me, int count)
{
    int before = me == 0 ? count - 1 : me - 1;
    unsigned sum = 0;
    for (unsigned round = 1; round <= ROUNDS; round += 1) {
        if (me == 0)
            __atomic_store_n(&mail[me].number, round, __ATOMIC_RELEASE);
        while (__atomic_load_n(&mail[before].number, __ATOMIC_ACQUIRE) != round)
            ;
        if (me != 0)
            __atomic_store_n(&mail[me].number, round, __ATOMIC_RELEASE);
        sum += round;
    }
    return sum == ROUNDS * (ROUNDS + 1) / 2 ? 0 : 1;
}
