/* FFT in six steps by OpenMP: what fft.c does, by loops with pragmas, each over bands of rows, of
   which there are as many as there may be nodes. To transpose, each band's tiles are made, and then
   each band fetches those that are for it.

   Layout: a tile is written by one thread and read by one other, as a whole. The tiles that a thread
   writes are at home at its node, and so are its rows, which nobody else touches. */
#include "fft.h"

enum { TILE = SIZE / MOST };

_Static_assert(SIZE % MOST == 0, "a square is bands");

static unsigned tiles[2][MOST][MOST][TILE][TILE] __attribute__((aligned(4096)));

static void make_tiles(unsigned band, unsigned made[MOST][TILE][TILE])
{
    for (unsigned other = 0; other < MOST; other += 1)
        for (unsigned column = 0; column < TILE; column += 1)
            for (unsigned row = 0; row < TILE; row += 1)
                made[other][column][row] = rows[band * TILE + row][other * TILE + column];
}

/* Fetches the tiles for a band, those of the band after it first. */
static void fetch_tiles(unsigned band, unsigned all[MOST][MOST][TILE][TILE])
{
    for (unsigned k = 1; k <= MOST; k += 1) {
        unsigned other = (band + k) % MOST;
        for (unsigned row = 0; row < TILE; row += 1)
            for (unsigned column = 0; column < TILE; column += 1)
                rows[band * TILE + row][other * TILE + column] = all[other][band][row][column];
    }
}

/* Transforms the rows of a band, and turns them where this is to be done. */
static void transform_band(unsigned band, const unsigned roots[SIZE / 2], unsigned root)
{
    for (unsigned row = band * TILE; row < (band + 1) * TILE; row += 1) {
        transform(rows[row], roots);
        if (root != 0)
            turn(rows[row], root_power(root, row));
    }
}

/* A thread has the same bands in each loop, so it needn't wait but for the tiles. */
static void transpose(unsigned all[MOST][MOST][TILE][TILE])
{
#pragma omp for schedule(static)
    for (unsigned band = 0; band < MOST; band += 1)
        make_tiles(band, all[band]);
#pragma omp for schedule(static) nowait
    for (unsigned band = 0; band < MOST; band += 1)
        fetch_tiles(band, all);
}

static void transform_all(unsigned root)
{
    unsigned roots[SIZE / 2];
    find_roots(root, roots);
#pragma omp parallel firstprivate(roots)
    {
        transpose(tiles[0]);
#pragma omp for schedule(static) nowait
        for (unsigned band = 0; band < MOST; band += 1)
            transform_band(band, roots, root);
        transpose(tiles[1]);
#pragma omp for schedule(static) nowait
        for (unsigned band = 0; band < MOST; band += 1)
            transform_band(band, roots, 0);
        transpose(tiles[0]);
    }
}

int main(void)
{
    unsigned root = first_root(), sum = 0, wrong = 0;
#pragma omp parallel for schedule(static)
    for (unsigned row = 0; row < SIZE; row += 1)
        fill(row);
    phase(1);
    transform_all(root);
    phase(2);
#pragma omp parallel for schedule(static) reduction(+ : sum, wrong)
    for (unsigned row = 0; row < SIZE; row += 1)
        wrong += check_row(row, root, &sum);
    tell(sum, wrong);
    return report("fft");
}
