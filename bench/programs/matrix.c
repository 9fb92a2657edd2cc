/* Multiplies square matrices of words. */
#include "common.h"

enum { SIZE = 96, ROUNDS = 5 };

static unsigned a[SIZE][SIZE], b[SIZE][SIZE], c[SIZE][SIZE];

int main(int me, int count)
{
    (void)count;
    if (me != 0)
        return 0;
    unsigned seed = 1, sum = 0;
    for (int i = 0; i < SIZE; i += 1)
        for (int j = 0; j < SIZE; j += 1) {
            a[i][j] = seed = next_of(seed);
            b[i][j] = seed = next_of(seed);
        }
    for (int round = 0; round < ROUNDS; round += 1)
        for (int i = 0; i < SIZE; i += 1)
            for (int j = 0; j < SIZE; j += 1) {
                unsigned dot = 0;
                for (int k = 0; k < SIZE; k += 1)
                    dot += a[i][k] * b[k][j];
                c[i][j] = dot + (unsigned)round;
            }
    for (int i = 0; i < SIZE; i += 1)
        for (int j = 0; j < SIZE; j += 1)
            sum = sum * 31 + c[i][j];
    print("matrix", sum % 100000u);
    return 0;
}
