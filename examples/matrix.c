/* The product of two matrices of signed numbers, in 64 bits: each processor makes some of its rows.
   Then processor 0 prints the two halves of its trace, and the mean of each matrix, which is rounded
   towards zero. */
#include <shasta_short.h>
#include <stdio.h>

enum { SIDE = 12 };

static int left[SIDE][SIDE];
static int right[SIDE][SIDE];
static long long product[SIDE][SIDE] IN_OWN_LINE;
static struct barrier filled;

static void fill(int row)
{
    for (int column = 0; column < SIDE; column += 1) {
        left[row][column] = (row * 7919 - column * 104729) * 1801;
        right[column][row] = (column * 611953 - row * 1299709) / (row - column - SIDE);
    }
}

static void multiply(int row)
{
    for (int column = 0; column < SIDE; column += 1) {
        long long sum = 0;
        for (int k = 0; k < SIDE; k += 1)
            sum += (long long)left[row][k] * right[k][column];
        product[row][column] = sum;
    }
}

static int mean_of(int matrix[SIDE][SIDE])
{
    int mean = 0;
    for (int row = 0; row < SIDE; row += 1)
        for (int column = 0; column < SIDE; column += 1)
            mean += matrix[row][column] / (SIDE * SIDE);
    return mean;
}

static void work(void *unused)
{
    (void)unused;
    int me = (int)processor();
    int count = (int)processors();
    for (int row = me; row < SIDE; row += count)
        fill(row);
    meet(&filled, processors());
    for (int row = me; row < SIDE; row += count)
        multiply(row);
}

int main(void)
{
    parallel(work, 0);
    long long trace = 0;
    for (int row = 0; row < SIDE; row += 1)
        trace += product[row][row];
    printf("high %u\nlow %u\n", (unsigned)(trace >> 32), (unsigned)trace);
    printf("mean %d\nmean %d\n", mean_of(left), mean_of(right));
    return 0;
}
