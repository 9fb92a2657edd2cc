/* LU by OpenMP: what lu.c does, by loops with pragmas. A column of blocks is always done by the same
   thread, since each loop deals out all columns in turn and passes over those that are done; whoever
   has changed the next block of the diagonal factors it at once.

   Layout: a block of B x B words is read whole by all threads, and written by that of its column.
   Blocks of memory of 256 bytes fetch it by one request, and where the number of columns is a
   multiple of the number of nodes, homes in turn are those of the threads that write. */
#include "lu.h"

static unsigned tiles[BLOCKS][BLOCKS][B][B] __attribute__((aligned(4096)));

static unsigned *element(unsigned row, unsigned column)
{
    return &tiles[row / B][column / B][row % B][column % B];
}

static void fill(void)
{
#pragma omp parallel for schedule(static, 1)
    for (unsigned column = 0; column < BLOCKS; column += 1)
        for (unsigned row = 0; row < SIZE; row += 1)
            for (unsigned k = column * B; k < (column + 1) * B; k += 1)
                *element(row, k) = original(row, k);
}

/* The row of the diagonal's block, and its column: those after it. */
static void solve(unsigned k)
{
#pragma omp for schedule(static, 1)
    for (unsigned other = 0; other < BLOCKS; other += 1) {
        if (other <= k)
            continue;
        solve_right(tiles[k][other], tiles[k][k]);
        solve_below(tiles[other][k], tiles[k][k]);
    }
}

/* All blocks after the diagonal's. */
static void change(unsigned k)
{
#pragma omp for schedule(static, 1)
    for (unsigned column = 0; column < BLOCKS; column += 1)
        for (unsigned row = k + 1; column > k && row < BLOCKS; row += 1) {
            subtract(tiles[row][column], tiles[row][k], tiles[k][column]);
            if (row == k + 1 && column == k + 1)
                factor(tiles[row][column]);
        }
}

static void eliminate(void)
{
    factor(tiles[0][0]);
#pragma omp parallel
    for (unsigned k = 0; k < BLOCKS; k += 1) {
        solve(k);
        change(k);
    }
}

/* Whether the product of the factors has the element of the matrix here. */
static int is_right(unsigned row, unsigned column)
{
    unsigned sum = row <= column ? *element(row, column) : 0;
    for (unsigned k = 0; k < row && k <= column; k += 1)
        sum = (sum + *element(row, k) * *element(k, column)) % MODULUS;
    return sum % MODULUS == original(row, column);
}

static void check(void)
{
    unsigned sum = 0, wrong = 0;
#pragma omp parallel for schedule(static, 1) reduction(+ : sum, wrong)
    for (unsigned row = 0; row < SIZE; row += 1)
        for (unsigned column = 0; column < SIZE; column += 1) {
            sum += at_place(row * SIZE + column, *element(row, column));
            if (row % CHECKED == CHECKED - 1)
                wrong += !is_right(row, column);
        }
    tell(sum, wrong);
}

int main(void)
{
    fill();
    phase(1);
    eliminate();
    phase(2);
    check();
    return report("lu");
}
