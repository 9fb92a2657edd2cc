/* Pages that were given back, of the one arena: a bit for each, in some lines under a lock, so that
   nobody looks into a page to find another. The first that fit are taken, and new ones where none
   do. */
#include "pages.h"

#include <stdint.h>

enum { MOST_PAGES = 16 << 20 >> 12 };   /* of all shared memory */

extern char __heap_start[];

static struct {
    struct shasta_lock lock;
    unsigned count;
    uint32_t free[MOST_PAGES / 32] SHASTA_IN_OWN_LINE;
} returned;

/* The first of so many free pages; MOST_PAGES where there are none. */
static unsigned first_fit(unsigned pages)
{
    unsigned fit = 0;
    if (pages > returned.count)
        return MOST_PAGES;
    for (unsigned page = 0; page < MOST_PAGES; page += 1) {
        uint32_t word = returned.free[page / 32];
        if (word == 0) {
            page |= 31;
            fit = 0;
        } else if (word >> page % 32 & 1) {
            fit += 1;
            if (fit == pages)
                return page + 1 - pages;
        } else {
            fit = 0;
        }
    }
    return MOST_PAGES;
}

/* Turns the bits of some pages. */
static void turn(unsigned first, unsigned pages)
{
    for (unsigned page = first; page < first + pages; page += 1)
        returned.free[page / 32] ^= 1u << page % 32;
}

char *__shasta_take_pages(unsigned pages, bool *is_fresh)
{
    __shasta_enter(&returned.lock);
    unsigned first = first_fit(pages);
    if (first < MOST_PAGES) {
        turn(first, pages);
        returned.count -= pages;
    }
    shasta_leave(&returned.lock);
    *is_fresh = first == MOST_PAGES;
    return *is_fresh ? __shasta_more((size_t)pages * PAGE, PAGE)
                     : __heap_start + (size_t)first * PAGE;
}

void __shasta_give_pages(char *from, unsigned pages)
{
    __shasta_enter(&returned.lock);
    turn((unsigned)(from - __heap_start) / PAGE, pages);
    returned.count += pages;
    shasta_leave(&returned.lock);
}
