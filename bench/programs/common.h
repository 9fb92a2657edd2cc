/* What the programs share: one processor works, and prints one number by which its work can be compared. */
#include "../../examples/bare.h"

/* The next of a row of numbers that look like chance. */
static inline unsigned next_of(unsigned number)
{
    return number * 1664525u + 1013904223u;
}
