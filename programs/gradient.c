/* Conjugate gradients: a sparse symmetric system of equations with floats is solved, some steps
   far. A processor has a part of the rows. A step multiplies the matrix by a vector of which each
   reads what its rows want, and takes two sums over all rows. These are added up by a tree of 16
   chunks of rows, whose order is the same for every number of processors, so the floats are too. In
   the end what is left of the equations is found anew.

   Layout: rows and parts of vectors are at home at their processor; others read the one vector
   alone. What the tree hands up and down has lines of its own, each at home where it is written. */
#include "kernel.h"

#include <string.h>

#ifndef SIZE
#define SIZE 256
#endif
enum { NEAR = 7, CHUNKS = MOST, ROWS = SIZE / CHUNKS, STEPS = 6 };

_Static_assert(SIZE % CHUNKS == 0 && (SIZE & (SIZE - 1)) == 0, "rows pair by any mask");

/* A row: what is off the diagonal, and on it. */
struct row {
    unsigned count;
    unsigned columns[NEAR];
    float values[NEAR];
    float diagonal;
};

/* A sum that is handed on in a turn. */
struct handed {
    float sum;
    unsigned turn;
} IN_OWN_LINE;

static struct row matrix[SIZE] __attribute__((aligned(4096)));
static float way[SIZE] __attribute__((aligned(4096)));
static float found[SIZE] __attribute__((aligned(4096)));
static float rest_of[SIZE] __attribute__((aligned(4096)));
static float product[SIZE] __attribute__((aligned(4096)));
static struct handed up[2][CHUNKS] __attribute__((aligned(4096)));
static struct handed down[2][CHUNKS] __attribute__((aligned(4096)));
static struct barrier barrier;

/* The first chunk of a processor's, and whose a chunk is. */
static unsigned first_chunk(unsigned part)
{
    return first_of(CHUNKS, part);
}

static unsigned owner_of(unsigned chunk)
{
    return ((chunk + 1) * processors() - 1) / CHUNKS;
}

static float right_side(unsigned row)
{
    return (float)(next_of(next_of(row)) >> 24) / 256;
}

/* The value of a pair of rows, the same both ways; 0 for some. */
static float value_of(unsigned row, unsigned column)
{
    unsigned pair = row < column ? row * SIZE + column : column * SIZE + row;
    unsigned chance = next_of(next_of(pair)) >> 24;
    return chance % 4 == 0 ? 0 : -(float)(1 + chance % 8) / 8;
}

static void fill(unsigned from, unsigned to)
{
    for (unsigned row = from; row < to; row += 1) {
        unsigned mask = 1, count = 0;
        float diagonal = 0.5f;
        for (unsigned k = 0; k < NEAR; k += 1, mask = 3 * mask + 1) {
            unsigned column = row ^ (mask & (SIZE - 1));
            float value = value_of(row, column);
            if (value == 0 || column == row)
                continue;
            matrix[row].columns[count] = column;
            matrix[row].values[count] = value;
            diagonal -= value;
            count += 1;
        }
        matrix[row].count = count;
        matrix[row].diagonal = diagonal;
        found[row] = 0;
        way[row] = rest_of[row] = right_side(row);
    }
}

/* A row of the matrix by a vector. */
static float multiply(unsigned row, const float *vector)
{
    const struct row *own = &matrix[row];
    float sum = own->diagonal * vector[row];
    for (unsigned k = 0; k < own->count; k += 1)
        sum += own->values[k] * vector[own->columns[k]];
    return sum;
}

static void hand_on(struct handed *to, float sum, unsigned turn)
{
    to->sum = sum;
    __atomic_store_n(&to->turn, turn, __ATOMIC_RELEASE);
}

static float wait_for(struct handed *from, unsigned turn)
{
    while (__atomic_load_n(&from->turn, __ATOMIC_ACQUIRE) != turn)
        rest();
    return from->sum;
}

/* Adds up the sums of all chunks, of which this processor's are given, in the order of a tree; all
   have come then. Two turns after each other have places of their own. */
static float add_up(float sums[CHUNKS], unsigned turn)
{
    unsigned from = first_chunk(processor()), to = first_chunk(processor() + 1);
    for (unsigned half = 1; half < CHUNKS; half *= 2)
        for (unsigned chunk = from; chunk < to; chunk += 1) {
            unsigned place = chunk % (2 * half);
            if (place == half && owner_of(chunk - half) != processor())
                hand_on(&up[turn % 2][chunk], sums[chunk], turn);
            if (place == 0)
                sums[chunk] += owner_of(chunk + half) == processor()
                                   ? sums[chunk + half]
                                   : wait_for(&up[turn % 2][chunk + half], turn);
        }
    for (unsigned half = CHUNKS / 2; half != 0; half /= 2)
        for (unsigned chunk = from; chunk < to; chunk += 1) {
            unsigned place = chunk % (2 * half);
            if (place == half)
                sums[chunk] = owner_of(chunk - half) == processor()
                                  ? sums[chunk - half]
                                  : wait_for(&down[turn % 2][chunk], turn);
            if (place == 0 && owner_of(chunk + half) != processor())
                hand_on(&down[turn % 2][chunk + half], sums[chunk], turn);
        }
    return sums[from];
}

/* The product of two vectors. */
static float dot(const float *one, const float *other, unsigned turn)
{
    float sums[CHUNKS];
    unsigned from = first_chunk(processor()), to = first_chunk(processor() + 1);
    for (unsigned chunk = from; chunk < to; chunk += 1) {
        sums[chunk] = 0;
        for (unsigned row = chunk * ROWS; row < (chunk + 1) * ROWS; row += 1)
            sums[chunk] += one[row] * other[row];
    }
    return add_up(sums, turn);
}

/* One step; `square` is that of the rest before, and after it. */
static float step(unsigned from, unsigned to, float square, unsigned turn)
{
    for (unsigned row = from; row < to; row += 1)
        product[row] = multiply(row, way);
    float length = square / dot(way, product, turn);
    for (unsigned row = from; row < to; row += 1) {
        found[row] += length * way[row];
        rest_of[row] -= length * product[row];
    }
    float after = dot(rest_of, rest_of, turn + 1);
    for (unsigned row = from; row < to; row += 1)
        way[row] = rest_of[row] + after / square * way[row];
    meet(&barrier, processors());
    return after;
}

/* Whether what is left of the equations is what the steps say, and less than a hundredth. */
static void check(unsigned from, unsigned to, float before, float after)
{
    unsigned sum = 0, wrong = after > before / 100;
    for (unsigned row = from; row < to; row += 1) {
        unsigned bits;
        float error = right_side(row) - multiply(row, found) - rest_of[row];
        memcpy(&bits, &found[row], sizeof bits);
        sum += at_place(row, bits);
        wrong += error > 1e-4f || error < -1e-4f;
    }
    tell(sum, wrong);
}

static void work(void *unused)
{
    unsigned from = first_chunk(processor()) * ROWS, to = first_chunk(processor() + 1) * ROWS;
    unsigned turn = 1;
    (void)unused;
    fill(from, to);
    float before = dot(rest_of, rest_of, turn), after = before;
    meet(&barrier, processors());
    phase(1);
    for (unsigned count = 0; count < STEPS; count += 1) {
        after = step(from, to, after, turn + 1);
        turn += 2;
    }
    phase(2);
    check(from, to, before, after);
}

int main(void)
{
    parallel(work, 0);
    return report("gradient");
}
