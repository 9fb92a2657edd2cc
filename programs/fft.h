/* What fft.c and fft_openmp.c share: numbers modulo 65537, and what is done with a row of the
   square, so that every number of processors gives the same. */
#ifndef FFT_H
#define FFT_H

#include "kernel.h"

#ifndef SIZE
#define SIZE 32
#endif
enum { COUNT = SIZE * SIZE, MODULUS = 65537, GENERATOR = 3, CHECKED = 16 };

_Static_assert((MODULUS - 1) % COUNT == 0, "one has a root of this order");

static unsigned rows[SIZE][SIZE] __attribute__((aligned(4096)));

static unsigned original(unsigned index)
{
    return next_of(index) >> 12 & 0xffff;
}

/* A product of two numbers that are at most 65536, by the modulus: 65536 is -1. */
static inline unsigned product(unsigned one, unsigned other)
{
    unsigned whole = one * other;
    int rest = (int)((whole & 0xffff) - (whole >> 16) + ((one & other) >> 16));
    return (unsigned)(rest < 0 ? rest + MODULUS : rest);
}

static inline unsigned sum_of(unsigned one, unsigned other)
{
    unsigned sum = one + other;
    return sum >= MODULUS ? sum - MODULUS : sum;
}

static unsigned root_power(unsigned number, unsigned exponent)
{
    unsigned result = 1;
    for (; exponent != 0; exponent /= 2) {
        if (exponent & 1)
            result = product(result, number);
        number = product(number, number);
    }
    return result;
}

/* A root of one of order SIZE * SIZE, and the powers of it that a row is transformed by. */
static unsigned first_root(void)
{
    return root_power(GENERATOR, (MODULUS - 1) / COUNT);
}

static void find_roots(unsigned root, unsigned roots[SIZE / 2])
{
    for (unsigned k = 0; k < SIZE / 2; k += 1)
        roots[k] = root_power(root, SIZE * k);
}

static void fill(unsigned row)
{
    for (unsigned column = 0; column < SIZE; column += 1)
        rows[row][column] = original(row * SIZE + column);
}

/* Puts each number of a row where the bits of its place, read backwards, say. */
static void reverse_places(unsigned row[SIZE])
{
    for (unsigned place = 0, other = 0; place < SIZE; place += 1) {
        if (place < other) {
            unsigned number = row[place];
            row[place] = row[other];
            row[other] = number;
        }
        unsigned bit = SIZE / 2;
        for (; bit != 0 && other & bit; bit /= 2)
            other -= bit;
        other += bit;
    }
}

/* Transforms one row, by joining stretches of it in pairs; the roots are those of order SIZE. */
static void transform(unsigned row[SIZE], const unsigned roots[SIZE / 2])
{
    reverse_places(row);
    for (unsigned half = 1; half < SIZE; half *= 2)
        for (unsigned k = 0; k < half; k += 1) {
            unsigned root = roots[k * (SIZE / 2 / half)];
            for (unsigned at = k; at < SIZE; at += 2 * half) {
                unsigned turned = product(row[at + half], root), before = row[at];
                row[at + half] = sum_of(before, MODULUS - turned);
                row[at] = sum_of(before, turned);
            }
        }
}

/* Multiplies the numbers of a row by the powers of a root. */
static void turn(unsigned row[SIZE], unsigned root)
{
    unsigned factor = 1;
    for (unsigned column = 0; column < SIZE; column += 1) {
        row[column] = product(row[column], factor);
        factor = product(factor, root);
    }
}

/* A number of the transform, by the sum that defines it. */
static unsigned defined(unsigned index, unsigned root)
{
    unsigned factor = root_power(root, index), sum = 0;
    for (unsigned k = COUNT; k > 0; k -= 1)
        sum = sum_of(product(sum, factor), original(k - 1));
    return sum;
}

/* Whether a number of a row is wrong, where one is looked at; adds the row to the sum of the
   result. */
static unsigned check_row(unsigned row, unsigned root, unsigned *sum)
{
    unsigned column = 7 * row % SIZE, wrong = 0;
    if (row % (SIZE / CHECKED) == 0)
        wrong = rows[row][column] != defined(row * SIZE + column, root);
    for (column = 0; column < SIZE; column += 1)
        *sum += at_place(row * SIZE + column, rows[row][column]);
    return wrong;
}

#endif
