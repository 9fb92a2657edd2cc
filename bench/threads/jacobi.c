/* A grid of words, of which each becomes the mean of its neighbours, step by step: the rows go round the processors,
   so that each reads rows of others at every step. */
#include "common.h"

enum { ROWS = 64, WORDS = 64, STEPS = 40 };

static unsigned grids[2][ROWS + 2][WORDS + 2] LINE;

int main(int me, int count)
{
    if (me == 0)
        for (int grid = 0; grid < 2; grid += 1)
            for (int k = 0; k < WORDS + 2; k += 1)
                grids[grid][0][k] = 1u << 20;
    meet((unsigned)count);
    for (int step = 0; step < STEPS; step += 1) {
        unsigned (*from)[WORDS + 2] = grids[step & 1], (*to)[WORDS + 2] = grids[~step & 1];
        for (int row = 1 + me; row <= ROWS; row += count)
            for (int k = 1; k <= WORDS; k += 1)
                to[row][k] = (from[row - 1][k] + from[row + 1][k] + from[row][k - 1] + from[row][k + 1]) >> 2;
        meet((unsigned)count);
    }
    unsigned sum = 0;
    for (int row = 1; row <= ROWS; row += 1)
        for (int k = 1; k <= WORDS; k += 1)
            sum += grids[STEPS & 1][row][k];
    return sum > 1u << 20 ? 0 : 1;
}
