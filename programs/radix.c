/* Radix sort: numbers are sorted by eight bits at a time. Each processor sorts its part by a digit
   into a place of its own; then each fetches what belongs into its part of the whole, run by run.
   Each checks the order of its part; the sums before and after are compared.

   Layout: a processor writes into its own parts alone, which are at home there. What it fetches are
   runs: a part is fetched by blocks, of which all is wanted but at a run's ends. */
#include "kernel.h"

#ifndef SIZE
#define SIZE 4096
#endif
enum { BITS = 8, DIGITS = 1 << BITS, PASSES = 2 };

static unsigned keys[SIZE] __attribute__((aligned(4096)));
static unsigned sorted[SIZE] __attribute__((aligned(4096)));
static unsigned counts[MOST][DIGITS] __attribute__((aligned(4096)));
static struct barrier barrier;
static unsigned before IN_OWN_LINE;
static unsigned after IN_OWN_LINE;

static unsigned digit_of(unsigned key, unsigned pass)
{
    return key >> BITS * pass & (DIGITS - 1);
}

static void fill(unsigned from, unsigned to)
{
    unsigned sum = 0;
    for (unsigned k = from; k < to; k += 1) {
        keys[k] = next_of(next_of(k)) >> (32 - BITS * PASSES);
        sum += keys[k];
    }
    fetch_and_add(&before, sum);
}

/* Sorts this processor's part by a digit. */
static void sort_part(unsigned from, unsigned to, unsigned pass)
{
    unsigned places[DIGITS] = {0}, place = from, *own = counts[processor()];
    for (unsigned k = from; k < to; k += 1)
        places[digit_of(keys[k], pass)] += 1;
    for (unsigned digit = 0; digit < DIGITS; digit += 1) {
        unsigned count = places[digit];
        own[digit] = count;
        places[digit] = place;
        place += count;
    }
    for (unsigned k = from; k < to; k += 1)
        sorted[places[digit_of(keys[k], pass)]++] = keys[k];
}

/* Copies what of a run, which goes to a place of the whole, belongs into this processor's part. */
static void fetch_run(const unsigned *run, unsigned count, unsigned place, unsigned from,
                      unsigned to)
{
    unsigned first = place < from ? from - place : 0;
    unsigned last = place + count > to ? to - place : count;
    for (unsigned k = first; k < last; k += 1)
        keys[place + k] = run[k];
}

/* Fetches this processor's part: the runs of each digit, by the parts in which they are. */
static void fetch(unsigned from, unsigned to)
{
    unsigned at[MOST], place = 0;
    for (unsigned part = 0; part < processors(); part += 1)
        at[part] = first_of(SIZE, part);
    for (unsigned digit = 0; digit < DIGITS; digit += 1)
        for (unsigned part = 0; part < processors(); part += 1) {
            unsigned count = counts[part][digit];
            if (place < to && place + count > from)
                fetch_run(&sorted[at[part]], count, place, from, to);
            at[part] += count;
            place += count;
        }
}

static void check(unsigned from, unsigned to)
{
    unsigned sum = 0, wrong = 0, all = 0;
    for (unsigned k = from; k < to; k += 1) {
        wrong += k != 0 && keys[k - 1] > keys[k];
        all += keys[k];
        sum += at_place(k, keys[k]);
    }
    fetch_and_add(&after, all);
    tell(sum, wrong);
}

static void work(void *unused)
{
    unsigned from = first_of(SIZE, processor()), to = first_of(SIZE, processor() + 1);
    (void)unused;
    fill(from, to);
    meet(&barrier, processors());
    phase(1);
    for (unsigned pass = 0; pass < PASSES; pass += 1) {
        sort_part(from, to, pass);
        meet(&barrier, processors());
        fetch(from, to);
        meet(&barrier, processors());
    }
    phase(2);
    check(from, to);
}

int main(void)
{
    parallel(work, 0);
    tell(0, before != after);
    return report("radix");
}
