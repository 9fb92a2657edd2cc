/* Ocean: a grid that each step draws towards the mean of its neighbours, first at its red points,
   then at its black ones. A processor has a strip of rows and reads the last row of each neighbour.
   All numbers are whole, so every number of processors gives the same. Each makes some of its
   points anew alone, from the first values on which they depend.

   Layout: red and black points are in arrays of their own, so while the ones are written the others
   are only read. A strip is in blocks that are at home at its processor: it fetches no block of its
   own strip, and two rows of each neighbour. */
#include "kernel.h"

#ifndef SIZE
#define SIZE 64
#endif
enum { ROW = SIZE / 2, STEPS = 4, HALVES = 2 * STEPS, CHECKED = 4 };
enum { FAR = HALVES + 1, PATCH = 2 * FAR + 1 };

_Static_assert(SIZE % 2 == 0, "a row has as many red points as black ones");

/* The points of each colour; a point of row r and column c has colour (r + c) % 2. */
static int points[2][SIZE][ROW] __attribute__((aligned(4096)));
static struct barrier barrier;

static int original(int row, int column)
{
    return (row * 7919 + column * 104729) % 100000;
}

static void fill(int from, int to)
{
    for (int row = from; row < to; row += 1)
        for (int column = 0; column < SIZE; column += 1)
            points[(row + column) % 2][row][column / 2] = original(row, column);
}

/* Half a step on rows of one colour. The first row and the last stay as they are. */
static void relax(int own[SIZE][ROW], int other[SIZE][ROW], int from, int to, int colour)
{
    for (int row = from == 0 ? 1 : from; row < to && row < SIZE - 1; row += 1) {
        int odd = (row + colour) % 2;
        const int *above = other[row - 1], *below = other[row + 1], *left = other[row] + odd - 1;
        for (int k = 1 - odd; k < ROW - odd; k += 1)
            own[row][k] = (above[k] + below[k] + left[k] + left[k + 1]) / 4;
    }
}

/* A point by the first values around it, alone. */
static int alone(int row, int column)
{
    static const int edge = SIZE - 1;
    int patch[PATCH][PATCH];
    for (int y = 0; y < PATCH; y += 1)
        for (int x = 0; x < PATCH; x += 1)
            patch[y][x] = original(row + y - FAR, column + x - FAR);
    for (int half = 0; half < HALVES; half += 1)
        for (int y = 1; y < PATCH - 1; y += 1)
            for (int x = 1; x < PATCH - 1; x += 1) {
                int at = row + y - FAR, to = column + x - FAR;
                if (at > 0 && at < edge && to > 0 && to < edge && (at + to) % 2 == half % 2)
                    patch[y][x] = (patch[y - 1][x] + patch[y + 1][x] + patch[y][x - 1]
                                   + patch[y][x + 1]) / 4;
            }
    return patch[FAR][FAR];
}

static void check(int from, int to)
{
    unsigned sum = 0, wrong = 0;
    for (int row = from; row < to; row += 1) {
        for (int column = 0; column < SIZE; column += 1)
            sum += at_place((unsigned)(row * SIZE + column),
                            (unsigned)points[(row + column) % 2][row][column / 2]);
        int column = 1 + row * 37 % (SIZE - 2);
        if (row % CHECKED == 0)
            wrong += points[(row + column) % 2][row][column / 2] != alone(row, column);
    }
    tell(sum, wrong);
}

static void work(void *unused)
{
    int from = (int)first_of(SIZE, processor()), to = (int)first_of(SIZE, processor() + 1);
    (void)unused;
    fill(from, to);
    meet(&barrier, processors());
    phase(1);
    for (int half = 0; half < HALVES; half += 1) {
        relax(points[half % 2], points[1 - half % 2], from, to, half % 2);
        meet(&barrier, processors());
    }
    phase(2);
    check(from, to);
}

int main(void)
{
    parallel(work, 0);
    return report("ocean");
}
