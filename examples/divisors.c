/* The greatest common divisors of all pairs of numbers up to a limit, by remainders: each processor
   makes some rows of the table. Then processor 0 prints the sum of the table, and how many remainders
   the longest way to a divisor takes. */
#include <shasta_short.h>
#include <stdio.h>

enum { SIDE = 40 };

static unsigned char divisors[SIDE][SIDE] IN_OWN_LINE;
static unsigned char steps[SIDE][SIDE] IN_OWN_LINE;

static void fill(unsigned row, unsigned column)
{
    unsigned divisor = row + 1;
    unsigned rest = column + 1;
    unsigned char taken = 0;
    while (rest != 0) {
        unsigned next = divisor % rest;
        divisor = rest;
        rest = next;
        taken += 1;
    }
    divisors[row][column] = (unsigned char)divisor;
    steps[row][column] = taken;
}

static void work(void *unused)
{
    (void)unused;
    for (unsigned row = processor(); row < SIDE; row += processors())
        for (unsigned column = 0; column < SIDE; column += 1)
            fill(row, column);
}

int main(void)
{
    parallel(work, 0);
    unsigned sum = 0;
    unsigned most = 0;
    for (unsigned row = 0; row < SIDE; row += 1)
        for (unsigned column = 0; column < SIDE; column += 1) {
            sum += divisors[row][column];
            if (most < steps[row][column])
                most = steps[row][column];
        }
    printf("sum %u\nremainders %u\n", sum, most);
    return 0;
}
