/* The program of README.md: processor 0 hands a number to processor 1, which adds 1 and prints it.
   The number stands at 0x12000, and node 0 is the home of that page. */
#include "bare.h"

static volatile unsigned number __attribute__((aligned(8192)));

int main(int me, int count)
{
    (void)count;
    if (me == 0) {
        number = 1;
    } else if (me == 1) {
        while (number == 0)
            ;
        number += 1;
        print("number", number);
    }
    return 0;
}
