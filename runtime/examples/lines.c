/* Lines that are long, made piece by piece by all processors at once: each is written whole. */
#include "shasta_short.h"

#include <stdio.h>

enum { LINES = 3, LENGTH = 270 };

static void work(void *unused)
{
    (void)unused;
    for (int line = 0; line < LINES; line += 1) {
        for (int k = 0; k < LENGTH; k += 1)
            putchar('a' + (int)processor());
        printf(" %d\n", line);
    }
}

int main(void)
{
    parallel(work, 0);
    return 0;
}
