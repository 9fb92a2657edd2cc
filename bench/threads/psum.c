/* Each of 1, 2, 4, 8 or 16 processors sums its part of an array of 1 MiB: with more of them, more
   often, so that each does as much as one. */
#include "common.h"

enum { WORDS = 1 << 18, ROUNDS = 144 };

static volatile unsigned array[WORDS] LINE;

int main(int me, int count)
{
    unsigned part = WORDS, first = 0, rounds = 0, sum = 0;
    for (int k = 1; k < count; k += k)
        part >>= 1;
    for (int k = 0; k < me; k += 1)
        first += part;
    for (int k = 0; k < count; k += 1)
        rounds += ROUNDS;
    for (unsigned round = 0; round < rounds; round += 1)
        for (unsigned k = 0; k < part; k += 1)
            sum += array[first + k];
    return (int)sum;
}
