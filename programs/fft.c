/* FFT in six steps: the transform of SIZE * SIZE numbers that stand in a square, modulo 65537, so
   that every number of processors gives the same. The square is transposed, its rows are
   transformed, and each number is turned by a root of one; it is transposed and transformed again,
   and transposed. A processor has a band of rows. To transpose, each puts what another wants into a
   tile for it, and then fetches the tiles that are for it. Each checks a number of some of its rows
   by the sum that defines it.

   Layout: a tile is written by one processor and read by one other, as a whole. The tiles that a
   processor writes are at home there, and so are its rows, which nobody else touches. */
#include "fft.h"

static unsigned tiles[2][COUNT] __attribute__((aligned(4096)));
static struct barrier barrier;

static unsigned first_row(unsigned band)
{
    return first_of(SIZE, band);
}

/* The tile that a band makes of its rows for the columns of another band's. */
static unsigned *tile_of(unsigned *all, unsigned band, unsigned other)
{
    unsigned height = first_row(band + 1) - first_row(band);
    return all + first_row(band) * SIZE + height * first_row(other);
}

static void make_tiles(unsigned *all)
{
    unsigned from = first_row(processor()), to = first_row(processor() + 1);
    for (unsigned other = 0; other < processors(); other += 1) {
        unsigned *at = tile_of(all, processor(), other);
        for (unsigned column = first_row(other); column < first_row(other + 1); column += 1)
            for (unsigned row = from; row < to; row += 1)
                *at++ = rows[row][column];
    }
}

/* Fetches the tiles for this processor, those of the band after its own first. */
static void fetch_tiles(unsigned *all)
{
    unsigned from = first_row(processor()), to = first_row(processor() + 1);
    for (unsigned k = 1; k <= processors(); k += 1) {
        unsigned band = (processor() + k) % processors();
        const unsigned *at = tile_of(all, band, processor());
        for (unsigned row = from; row < to; row += 1)
            for (unsigned column = first_row(band); column < first_row(band + 1); column += 1)
                rows[row][column] = *at++;
    }
}

/* Tiles are made anew when all have met once more, so nobody reads them any longer. */
static void transpose(unsigned *all)
{
    make_tiles(all);
    meet(&barrier, processors());
    fetch_tiles(all);
}

static void check(unsigned from, unsigned to, unsigned root)
{
    unsigned sum = 0, wrong = 0;
    for (unsigned row = from; row < to; row += 1)
        wrong += check_row(row, root, &sum);
    tell(sum, wrong);
}

static void work(void *unused)
{
    unsigned root = first_root(), roots[SIZE / 2];
    unsigned from = first_row(processor()), to = first_row(processor() + 1);
    (void)unused;
    find_roots(root, roots);
    for (unsigned row = from; row < to; row += 1)
        fill(row);
    meet(&barrier, processors());
    phase(1);
    transpose(tiles[0]);
    for (unsigned row = from; row < to; row += 1) {
        transform(rows[row], roots);
        turn(rows[row], root_power(root, row));
    }
    transpose(tiles[1]);
    for (unsigned row = from; row < to; row += 1)
        transform(rows[row], roots);
    transpose(tiles[0]);
    meet(&barrier, processors());
    phase(2);
    check(from, to, root);
}

int main(void)
{
    parallel(work, 0);
    return report("fft");
}
