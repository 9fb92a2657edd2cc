/* malloc and its kin: blocks keep what they hold, and where there is no room 0 comes, and
   ENOMEM. */
#include <errno.h>
#include <stdint.h>
#include <stdio.h>
#include <stdlib.h>
#include <string.h>

#include "shasta_short.h"

enum { BLOCKS = 200 };

static unsigned char *blocks[BLOCKS];
static size_t lengths[BLOCKS];

/* Fills a block with a byte of its own. */
static void renew(unsigned k, size_t length)
{
    blocks[k] = realloc(blocks[k], length);
    lengths[k] = length;
    memset(blocks[k], (int)k, length);
}

static unsigned spoiled(void)
{
    unsigned count = 0;
    for (unsigned k = 0; k < BLOCKS; k += 1)
        for (size_t at = 0; at < lengths[k]; at += 1)
            count += blocks[k][at] != (unsigned char)k;
    return count;
}

int main(void)
{
    unsigned seed = 1;
    for (unsigned round = 0; round < 4 * BLOCKS; round += 1) {
        seed = seed * 1664525u + 1013904223u;
        renew(seed >> 16 & 127, 1 + (seed >> 8) % (seed & 1 ? 100 : 3000));
        if (seed & 4) {
            free(blocks[seed >> 24 & 127]);
            blocks[seed >> 24 & 127] = 0;
            lengths[seed >> 24 & 127] = 0;
        }
    }
    printf("bytes spoiled %u\n", spoiled());
    unsigned *zeros = calloc(100, 4);
    printf("calloc %u, lines at %u, pages at %u\n", zeros[99],
           (unsigned)((uintptr_t)allocate_lines(100) % LINE),
           (unsigned)((uintptr_t)aligned_alloc(4096, 5000) % 4096));
    void *large = malloc(0x7000000);
    printf("too much: %p, %s\n", large, errno == ENOMEM ? "ENOMEM" : "another error");
    unsigned pages = 0;
    while (malloc(4000) != 0)
        pages += 1;
    printf("used up: %s\n", pages > 900 && pages < 1024 ? "after some 4 MiB" : "at another time");
    return 0;
}
