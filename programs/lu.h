/* What lu.c and lu_openmp.c share: the matrix, and what is done with its blocks. Numbers are modulo
   65521, so that every order of the processors gives the same. */
#ifndef LU_H
#define LU_H

#include "kernel.h"

#ifndef SIZE
#define SIZE 32
#endif
enum { B = 8, BLOCKS = SIZE / B, MODULUS = 65521, CHECKED = 8 };

_Static_assert(SIZE % B == 0, "the matrix is blocks");

/* An element of the matrix, before it is factored. */
static unsigned original(unsigned row, unsigned column)
{
    return row == column ? 40000 + row : (row * 331 + column * 577 + 1) % 1000;
}

/* Subtracts the product of a block of columns and one of rows. The remainders of B products are
   added up in a register; by itself the function has registers for all that its loops need. */
__attribute__((noinline))
static void subtract(unsigned to[B][B], unsigned left[B][B], unsigned right[B][B])
{
    for (unsigned row = 0; row < B; row += 1)
        for (unsigned column = 0; column < B; column += 1) {
            unsigned sum = 0;
            for (unsigned k = 0; k < B; k += 1)
                sum += left[row][k] * right[k][column] % MODULUS;
            to[row][column] = (to[row][column] + B * MODULUS - sum) % MODULUS;
        }
}

static void factor(unsigned block[B][B])
{
    for (unsigned k = 0; k < B; k += 1) {
        unsigned inverse = power(block[k][k], MODULUS - 2, MODULUS);
        for (unsigned row = k + 1; row < B; row += 1) {
            unsigned factor = block[row][k] * inverse % MODULUS;
            block[row][k] = factor;
            for (unsigned column = k + 1; column < B; column += 1)
                block[row][column] = (block[row][column] + MODULUS
                                      - factor * block[k][column] % MODULUS) % MODULUS;
        }
    }
}

/* A block right of the diagonal: its rows by the lower factor. */
static void solve_right(unsigned block[B][B], unsigned diagonal[B][B])
{
    for (unsigned row = 1; row < B; row += 1)
        for (unsigned column = 0; column < B; column += 1) {
            unsigned sum = 0;
            for (unsigned k = 0; k < row; k += 1)
                sum += diagonal[row][k] * block[k][column] % MODULUS;
            block[row][column] = (block[row][column] + B * MODULUS - sum) % MODULUS;
        }
}

/* A block below the diagonal: its columns by the upper factor. */
static void solve_below(unsigned block[B][B], unsigned diagonal[B][B])
{
    for (unsigned column = 0; column < B; column += 1) {
        unsigned inverse = power(diagonal[column][column], MODULUS - 2, MODULUS);
        for (unsigned row = 0; row < B; row += 1) {
            unsigned sum = 0;
            for (unsigned k = 0; k < column; k += 1)
                sum += block[row][k] * diagonal[k][column] % MODULUS;
            block[row][column] = (block[row][column] + B * MODULUS - sum) % MODULUS * inverse
                                 % MODULUS;
        }
    }
}

#endif
