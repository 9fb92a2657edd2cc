/* What the kernels share: parts of what there is to do, numbers that look like chance, powers, and
   how each tells what it found. Each kernel has a phase 1, which is what it is about; before it
   each processor makes its own data, and after it each checks its own. */
#ifndef KERNEL_H
#define KERNEL_H

#include "shasta_short.h"

#include <stdio.h>

enum { MOST = 16 };

/* The first of so many things that are a processor's; after its last comes the first of the next
   processor's. */
static inline unsigned first_of(unsigned things, unsigned part)
{
    return part * things / processors();
}

/* The next of a row of numbers that look like chance. */
static inline unsigned next_of(unsigned number)
{
    return number * 1664525u + 1013904223u;
}

/* A power by a modulus of 65536 at most. */
static inline unsigned power(unsigned number, unsigned exponent, unsigned modulus)
{
    unsigned result = 1;
    for (; exponent != 0; exponent /= 2) {
        if (exponent & 1)
            result = result * number % modulus;
        number = number * number % modulus;
    }
    return result;
}

/* What a number adds to the sum of a result, by its place in it. */
static inline unsigned at_place(unsigned place, unsigned number)
{
    return next_of(place) * (number | 1) + number;
}

/* What all processors have found. */
static unsigned found_sum IN_OWN_LINE;
static unsigned found_wrong IN_OWN_LINE;

/* Adds what this processor has found. */
static inline void tell(unsigned sum, unsigned wrong)
{
    fetch_and_add(&found_sum, sum);
    if (wrong != 0)
        fetch_and_add(&found_wrong, wrong);
}

/* Prints the sum of the result and how much of it is wrong; gives what main gives. */
static inline int report(const char *name)
{
    printf("%s %08x, wrong %u\n", name, found_sum, found_wrong);
    return found_wrong != 0;
}

#endif
