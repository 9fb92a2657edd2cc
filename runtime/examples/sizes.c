/* Blocks of all sizes and alignments, by a table: where there is no such block the answer is 0, and
   errno tells why. */
#include <errno.h>
#include <malloc.h>
#include <stdint.h>
#include <stdio.h>
#include <stdlib.h>
#include <string.h>
#include <unistd.h>

#include "shasta.h"

enum { NO_ERROR = 0 };

static const struct {
    size_t alignment;        /* 0 for malloc */
    size_t bytes;
    int error;
} blocks[] = {
    {0, 0, NO_ERROR},           {0, 1, NO_ERROR},        {0, 2016, NO_ERROR},
    {0, 2017, NO_ERROR},        {0, 1 << 20, NO_ERROR},  {0, SIZE_MAX, ENOMEM},
    {0, SIZE_MAX - 4095, ENOMEM}, {0, SIZE_MAX - 4200, ENOMEM}, {0, PTRDIFF_MAX, ENOMEM},
    {8, 24, NO_ERROR},          {16, 100, NO_ERROR},     {32, 100, NO_ERROR},
    {64, 0, NO_ERROR},          {64, 64, NO_ERROR},      {64, 2000, NO_ERROR},
    {64, 2017, NO_ERROR},       {64, SIZE_MAX, ENOMEM},  {64, SIZE_MAX - 62, ENOMEM},
    {64, SIZE_MAX - 63, ENOMEM}, {64, SIZE_MAX - 4096, ENOMEM}, {64, SIZE_MAX - 4200, ENOMEM},
    {128, 1, NO_ERROR},         {128, 3900, NO_ERROR},   {2048, 2048, NO_ERROR},
    {4096, 1, NO_ERROR},        {4096, 5000, NO_ERROR},  {65536, 70000, NO_ERROR},
    {4096, SIZE_MAX, ENOMEM},   {4096, SIZE_MAX - 8191, ENOMEM}, {4096, SIZE_MAX - 4096, ENOMEM},
    {1u << 31, 1, ENOMEM},      {1u << 31, 1u << 31, ENOMEM}, {24, 48, EINVAL},
    {6000, 6000, EINVAL},       {SIZE_MAX, 1, EINVAL},
};

static unsigned wrong;

static void check(unsigned line, int is_right)
{
    if (!is_right)
        printf("sizes.c:%u\n", line);
    wrong += !is_right;
}

#define CHECK(is_right) check(__LINE__, is_right)

/* Whether a block is right; it is filled, and given back. */
static int is_right(char *block, size_t alignment, size_t bytes, int error)
{
    if (error != NO_ERROR)
        return block == 0 && errno == error;
    if (block == 0 || (alignment != 0 && (uintptr_t)block % alignment != 0))
        return 0;
    int has_room = malloc_usable_size(block) >= bytes;
    memset(block, 0x55, bytes);
    free(block);
    return has_room;
}

static void check_blocks(void)
{
    for (unsigned k = 0; k < sizeof blocks / sizeof blocks[0]; k += 1) {
        size_t alignment = blocks[k].alignment, bytes = blocks[k].bytes;
        int error = blocks[k].error;
        errno = 0;
        if (alignment == 0) {
            CHECK(is_right(malloc(bytes), 0, bytes, error));
            continue;
        }
        CHECK(is_right(aligned_alloc(alignment, bytes), alignment, bytes, error));
        errno = 0;
        CHECK(is_right(memalign(alignment, bytes), alignment, bytes, error));
        if (alignment != SHASTA_LINE)
            continue;
        errno = 0;
        CHECK(is_right(shasta_allocate_lines(bytes), alignment, bytes, error));
    }
}

/* posix_memalign gives its error, and leaves errno and the block as they are. */
static void check_posix(void)
{
    void *const before = &wrong;
    for (unsigned k = 0; k < sizeof blocks / sizeof blocks[0]; k += 1) {
        size_t alignment = blocks[k].alignment, bytes = blocks[k].bytes;
        void *block = before;
        errno = 0;
        int error = posix_memalign(&block, alignment, bytes);
        CHECK(error == (alignment == 0 ? EINVAL : blocks[k].error) && errno == 0);
        CHECK(error == 0 ? block != before && (uintptr_t)block % alignment == 0 : block == before);
        if (error == 0)
            free(block);
    }
    void *block = before;
    CHECK(posix_memalign(&block, 2, 8) == EINVAL && block == before);
}

/* calloc gives zeros, in pages that had other bytes before, too; its product may wrap. */
static void check_calloc(void)
{
    for (size_t bytes = 1; bytes < 300000; bytes = bytes * 3 + 1) {
        char *block = calloc(bytes, 1);
        unsigned others = 0;
        for (size_t k = 0; k < bytes; k += 1)
            others += block[k] != 0;
        memset(block, 1, bytes);
        free(block);
        CHECK(others == 0);
    }
    volatile size_t half = SIZE_MAX / 2 + 1;
    errno = 0;
    CHECK(calloc(half, 2) == 0 && errno == ENOMEM);
}

/* A block that shrinks in a heap without room stays where it is. */
static void check_shrinking(void)
{
    unsigned char *large = malloc(100000);
    memset(large, 7, 100000);
    while (malloc(4000) != 0)
        ;
    while (malloc(1) != 0)
        ;
    errno = 0;
    large = realloc(large, 10);
    CHECK(large != 0 && large[9] == 7);
    CHECK(realloc(large, 200000) == 0 && errno == ENOMEM);
}

/* sbrk gives zeros, takes back what it gave, and nothing of malloc's. */
static void check_sbrk(void)
{
    char *kept = malloc(10000), *first = sbrk(8192);
    first[100] = 1;
    CHECK(sbrk(-8192) == first + 8192);
    CHECK(sbrk(0) == first && sbrk(-1) == (void *)-1);
    char *again = sbrk(4096);
    CHECK(again == first && again[100] == 0);
    CHECK(sbrk(PTRDIFF_MAX) == (void *)-1 && errno == ENOMEM);
    free(kept);
}

int main(void)
{
    check_blocks();
    check_posix();
    check_calloc();
    check_sbrk();
    check_shrinking();
    printf("%u blocks, wrong %u\n", (unsigned)(sizeof blocks / sizeof blocks[0]), wrong);
    return wrong != 0;
}
