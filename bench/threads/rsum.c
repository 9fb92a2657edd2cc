/* Each processor sums all of an array of 1 MiB. */
#include "common.h"

enum { WORDS = 1 << 18, ROUNDS = 144 };

static volatile unsigned array[WORDS] LINE;

int main(int me, int count)
{
    (void)me;
    (void)count;
    unsigned sum = 0;
    for (unsigned round = 0; round < ROUNDS; round += 1)
        for (unsigned k = 0; k < WORDS; k += 1)
            sum += array[k];
    return (int)sum;
}
