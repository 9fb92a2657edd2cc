/* LU: factors a matrix into a lower and an upper one by blocks, each of which is contiguous;
   numbers modulo 65521, so that every order of the processors gives the same. The processors stand
   in a grid, and a block is that one's whose row and column in the grid it has, in turn. Each
   checks some rows of the product.

   Layout: a block of B x B words is read whole by the processors of its row and column, and written
   by its owner. With B = 8 it has 256 bytes, so blocks of memory of 256 bytes fetch it by one
   request. The blocks of an owner stand side by side, and are at home there. */
#include "lu.h"

enum { ROOM = (BLOCKS + MOST) * (BLOCKS + MOST) };

/* Each owner has an equal part of the room, and uses the first of it. */
static unsigned tiles[ROOM][B][B] __attribute__((aligned(4096)));
static struct barrier barrier;

/* The grid of processors, and how many blocks of a row an owner has. */
struct grid {
    unsigned height;
    unsigned width;
    unsigned across;
};

static struct grid make_grid(void)
{
    struct grid grid = {1, processors(), 0};
    for (unsigned height = 2; height * height <= processors(); height += 1)
        if (processors() % height == 0)
            grid = (struct grid){height, processors() / height, 0};
    grid.across = (BLOCKS + grid.width - 1) / grid.width;
    return grid;
}

static unsigned owner_of(const struct grid *grid, unsigned row, unsigned column)
{
    return row % grid->height * grid->width + column % grid->width;
}

static unsigned (*block(const struct grid *grid, unsigned row, unsigned column))[B]
{
    unsigned first = owner_of(grid, row, column) * (ROOM / processors());
    return tiles[first + row / grid->height * grid->across + column / grid->width];
}

static int is_mine(const struct grid *grid, unsigned row, unsigned column)
{
    return owner_of(grid, row, column) == processor();
}

static void fill(const struct grid *grid)
{
    for (unsigned row = 0; row < SIZE; row += 1)
        for (unsigned column = 0; column < SIZE; column += 1)
            if (is_mine(grid, row / B, column / B))
                block(grid, row / B, column / B)[row % B][column % B] = original(row, column);
}

/* One step: the block of the diagonal, then its row and column, then all after them. The owner of
   the next block of the diagonal makes it last itself, so none waits for the others there. */
static void eliminate(const struct grid *grid, unsigned k)
{
    if (is_mine(grid, k, k))
        factor(block(grid, k, k));
    meet(&barrier, processors());
    for (unsigned other = k + 1; other < BLOCKS; other += 1) {
        if (is_mine(grid, k, other))
            solve_right(block(grid, k, other), block(grid, k, k));
        if (is_mine(grid, other, k))
            solve_below(block(grid, other, k), block(grid, k, k));
    }
    meet(&barrier, processors());
    for (unsigned row = k + 1; row < BLOCKS; row += 1)
        for (unsigned column = k + 1; column < BLOCKS; column += 1)
            if (is_mine(grid, row, column))
                subtract(block(grid, row, column), block(grid, row, k), block(grid, k, column));
}

static unsigned element(const struct grid *grid, unsigned row, unsigned column)
{
    return block(grid, row / B, column / B)[row % B][column % B];
}

/* Whether the product of the factors has the element of the matrix here. */
static int is_right(const struct grid *grid, unsigned row, unsigned column)
{
    unsigned sum = row <= column ? element(grid, row, column) : 0;
    for (unsigned k = 0; k < row && k <= column; k += 1)
        sum = (sum + element(grid, row, k) * element(grid, k, column)) % MODULUS;
    return sum % MODULUS == original(row, column);
}

static void check(const struct grid *grid)
{
    unsigned sum = 0, wrong = 0;
    for (unsigned row = processor(); row < SIZE; row += processors())
        for (unsigned column = 0; column < SIZE; column += 1) {
            sum += at_place(row * SIZE + column, element(grid, row, column));
            if (row % CHECKED == CHECKED - 1)
                wrong += !is_right(grid, row, column);
        }
    tell(sum, wrong);
}

static void work(void *unused)
{
    struct grid grid = make_grid();
    (void)unused;
    fill(&grid);
    meet(&barrier, processors());
    phase(1);
    for (unsigned k = 0; k < BLOCKS; k += 1)
        eliminate(&grid, k);
    meet(&barrier, processors());
    phase(2);
    check(&grid);
}

int main(void)
{
    parallel(work, 0);
    return report("lu");
}
