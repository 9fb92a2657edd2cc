/* malloc and its kin. Each processor takes small blocks from pages of its own, a page for each
   size, so that no line has blocks of two processors; what it needs for that lies in its private
   memory, so it takes no lock and sends no message but for a new page. A block that another
   processor gives back goes to the owner of its page. Large blocks are whole pages. */
#include "pages.h"

#include <errno.h>
#include <malloc.h>
#include <stdbool.h>
#include <stdint.h>
#include <string.h>

enum { HEAD = 64, LARGEST_SMALL = 2016 };

/* What stands before the blocks of a page, or before a large block, in a line of its own. */
struct head {
    unsigned size;           /* of each block of the page; of a large one, how many bytes it has */
    unsigned owner;          /* the processor that has the page, or LARGE */
    char *run;               /* of a large block: its pages */
    unsigned pages;
};

enum { LARGE = MOST_PROCESSORS };

static const unsigned short sizes[BINS] = {
    16, 32, 48, 64, 128, 192, 256, 320, 448, 576, 768, 1344, LARGEST_SMALL,
};

/* Blocks that other processors have given back to each owner. */
static struct {
    void *first SHASTA_IN_OWN_LINE;
} returned[MOST_PROCESSORS];

static unsigned bin_of(size_t bytes)
{
    unsigned bin = 0;
    while (sizes[bin] < bytes)
        bin += 1;
    return bin;
}

static struct head *head_of(void *block)
{
    uintptr_t within = (uintptr_t)block % PAGE;
    return (struct head *)((char *)block - (within == 0 ? HEAD : within));
}

static void *out_of_memory(void)
{
    errno = ENOMEM;
    return 0;
}

/* A large block at a multiple of so many bytes, HEAD or more; of zeros where that is asked for. Its
   head stands before it, at the start of its page. */
static void *take_large(size_t bytes, size_t multiple, bool is_zero)
{
    bool is_fresh;
    if (bytes > SIZE_MAX - PAGE - multiple)
        return out_of_memory();
    unsigned pages = (unsigned)((multiple + bytes + PAGE - 1) / PAGE);
    char *run = __shasta_take_pages(pages, &is_fresh);
    if (run == 0)
        return out_of_memory();
    char *block = run + HEAD;
    block += -(uintptr_t)block % multiple;
    *head_of(block) = (struct head){(unsigned)bytes, LARGE, run, pages};
    if (is_zero && !is_fresh)
        memset(block, 0, bytes);
    return block;
}

/* Puts a block of this processor's own into its bin. */
static void put_back(void *block, unsigned size)
{
    struct bin *bin = &own.bins[bin_of(size)];
    *(void **)block = bin->returned;
    bin->returned = block;
}

/* Puts the blocks that others have given back into their bins. */
static void collect_returned(void)
{
    if (__atomic_load_n(&returned[own.number].first, __ATOMIC_RELAXED) == 0)
        return;
    void *block = __atomic_exchange_n(&returned[own.number].first, 0, __ATOMIC_ACQUIRE);
    while (block != 0) {
        void *next = *(void **)block;
        put_back(block, head_of(block)->size);
        block = next;
    }
}

/* Gives a bin a new page, and says whether there was one. */
static int open_page(struct bin *bin, unsigned size)
{
    bool is_fresh;
    char *page = __shasta_take_pages(1, &is_fresh);
    if (page == 0)
        return 0;
    *(struct head *)page = (struct head){size, own.number, 0, 1};
    bin->fresh = page + HEAD;
    bin->end = bin->fresh + (PAGE - HEAD) / size * size;
    return 1;
}

static void *take_small(unsigned index)
{
    struct bin *bin = &own.bins[index];
    if (bin->returned == 0 && bin->fresh == bin->end)
        collect_returned();
    if (bin->returned == 0 && bin->fresh == bin->end && !open_page(bin, sizes[index]))
        return out_of_memory();
    void *block = bin->returned;
    if (block != 0) {
        bin->returned = *(void **)block;
    } else {
        block = bin->fresh;
        bin->fresh += sizes[index];
    }
    return block;
}

void *malloc(size_t bytes)
{
    return bytes <= LARGEST_SMALL ? take_small(bin_of(bytes)) : take_large(bytes, HEAD, false);
}

void free(void *block)
{
    if (block == 0)
        return;
    struct head *head = head_of(block);
    if (head->owner == LARGE) {
        __shasta_give_pages(head->run, head->pages);
    } else if (head->owner == own.number) {
        put_back(block, head->size);
    } else {
        void **first = &returned[head->owner].first;
        void *before = __atomic_load_n(first, __ATOMIC_RELAXED);
        do
            *(void **)block = before;
        while (!__atomic_compare_exchange_n(first, &before, block, 0, __ATOMIC_RELEASE,
                                            __ATOMIC_RELAXED));
    }
}

size_t malloc_usable_size(void *block)
{
    if (block == 0)
        return 0;
    struct head *head = head_of(block);
    if (head->owner != LARGE)
        return head->size;
    return (size_t)(head->run + (size_t)head->pages * PAGE - (char *)block);
}

void *calloc(size_t count, size_t size)
{
    size_t bytes;
    if (__builtin_mul_overflow(count, size, &bytes))
        return out_of_memory();
    if (bytes > LARGEST_SMALL)
        return take_large(bytes, HEAD, true);
    void *block = take_small(bin_of(bytes));
    return block != 0 ? memset(block, 0, bytes) : 0;
}

/* A block that shrinks by less than a half stays, and one that shrinks where there is no room. */
void *realloc(void *block, size_t bytes)
{
    size_t had = malloc_usable_size(block);
    if (block != 0 && bytes <= had && bytes >= had / 2)
        return block;
    void *moved = malloc(bytes);
    if (moved == 0 && block != 0 && bytes <= had)
        return block;
    if (moved == 0 || block == 0)
        return moved;
    memcpy(moved, block, bytes < had ? bytes : had);
    free(block);
    return moved;
}

/* A block at a multiple of so many bytes, a power of two. Small blocks of a whole number of lines
   stand at lines. */
void *memalign(size_t multiple, size_t bytes)
{
    if (multiple == 0 || (multiple & (multiple - 1)) != 0) {
        errno = EINVAL;
        return 0;
    }
    if (multiple <= 16)
        return malloc(bytes);
    if (multiple > HEAD || bytes > LARGEST_SMALL)
        return take_large(bytes, multiple < HEAD ? HEAD : multiple, false);
    size_t whole = (bytes + HEAD - 1) / HEAD * HEAD;
    unsigned index = whole <= LARGEST_SMALL ? bin_of(whole < HEAD ? HEAD : whole) : BINS;
    while (index < BINS && sizes[index] % HEAD != 0)
        index += 1;
    return index < BINS ? take_small(index) : take_large(bytes, HEAD, false);
}

void *aligned_alloc(size_t multiple, size_t bytes)
{
    return memalign(multiple, bytes);
}

int posix_memalign(void **block, size_t multiple, size_t bytes)
{
    int before = errno;
    if (multiple % sizeof(void *) != 0 || multiple == 0 || (multiple & (multiple - 1)) != 0)
        return EINVAL;
    void *taken = memalign(multiple, bytes);
    errno = before;
    if (taken == 0)
        return ENOMEM;
    *block = taken;
    return 0;
}
