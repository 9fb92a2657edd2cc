/* Sample sort: each processor sorts its part of the numbers, and shows some of them, evenly spread.
   By the samples of all each knows what the parts of the sorted whole begin with, and where that is
   in its own part. Then each fetches what belongs into its part from all the others, and merges it.
   Each checks the order of a part; the sums before and after are compared.

   Layout: a processor sorts a part that is at home there. What it fetches are runs that are as long
   as there are processors in a part, so large blocks bring nearly nothing that isn't wanted. */
#include "kernel.h"

#ifndef SIZE
#define SIZE 4096
#endif
enum { SHORT = 12 };

struct run {
    const unsigned *from;
    const unsigned *to;
};

static unsigned keys[SIZE] __attribute__((aligned(4096)));
static unsigned merged[2][SIZE] __attribute__((aligned(4096)));
static struct {
    unsigned samples[MOST] IN_OWN_LINE;
} shown[MOST] __attribute__((aligned(4096)));
static struct {
    unsigned from[MOST + 1] IN_OWN_LINE;    /* where each processor's run begins */
} bounds[MOST] __attribute__((aligned(4096)));
static struct barrier barrier;
static unsigned before IN_OWN_LINE;
static unsigned after IN_OWN_LINE;

static void fill(unsigned from, unsigned to)
{
    unsigned sum = 0;
    for (unsigned k = from; k < to; k += 1) {
        keys[k] = next_of(next_of(k) ^ k >> 3);
        sum += keys[k];
    }
    fetch_and_add(&before, sum);
}

/* Sorts a few numbers, by putting each where it belongs among those before it. */
static void insert_all(unsigned *keys, unsigned count)
{
    for (unsigned k = 1; k < count; k += 1) {
        unsigned key = keys[k], at = k;
        for (; at > 0 && keys[at - 1] > key; at -= 1)
            keys[at] = keys[at - 1];
        keys[at] = key;
    }
}

/* Sorts numbers, by dividing them at the middle one of three. */
static void sort(unsigned *keys, unsigned count)
{
    while (count > SHORT) {
        unsigned first = keys[0], last = keys[count - 1], middle = keys[count / 2];
        unsigned low = first < last ? first : last, high = first < last ? last : first;
        unsigned pivot = middle < low ? low : middle > high ? high : middle;
        unsigned left = 0, right = count - 1;
        for (;;) {
            while (keys[left] < pivot)
                left += 1;
            while (keys[right] > pivot)
                right -= 1;
            if (left >= right)
                break;
            unsigned key = keys[left];
            keys[left++] = keys[right];
            keys[right--] = key;
        }
        sort(keys, left);
        keys += left;
        count -= left;
    }
    insert_all(keys, count);
}

static void show_samples(unsigned from, unsigned to)
{
    for (unsigned k = 0; k < processors(); k += 1)
        shown[processor()].samples[k] = keys[from + (2 * k + 1) * (to - from) / (2 * processors())];
}

/* The first place in a sorted part at which a number isn't below a bound. */
static unsigned first_above(unsigned from, unsigned to, unsigned bound)
{
    while (from < to) {
        unsigned middle = from + (to - from) / 2;
        if (keys[middle] < bound)
            from = middle + 1;
        else
            to = middle;
    }
    return from;
}

/* Finds where in this processor's part the runs for each begin, by the samples of all. */
static void find_bounds(unsigned from, unsigned to)
{
    unsigned all[MOST * MOST], count = 0;
    for (unsigned part = 0; part < processors(); part += 1)
        for (unsigned k = 0; k < processors(); k += 1)
            all[count++] = shown[part].samples[k];
    sort(all, count);
    bounds[processor()].from[0] = from;
    bounds[processor()].from[processors()] = to;
    for (unsigned part = 1; part < processors(); part += 1)
        bounds[processor()].from[part] = first_above(from, to, all[part * processors()]);
}

/* Merges two runs; gives the place after the last. */
static unsigned *merge(struct run one, struct run other, unsigned *to)
{
    while (one.from < one.to && other.from < other.to)
        *to++ = *one.from <= *other.from ? *one.from++ : *other.from++;
    while (one.from < one.to)
        *to++ = *one.from++;
    while (other.from < other.to)
        *to++ = *other.from++;
    return to;
}

/* Merges the runs of all processors for this one in pairs, and again, until there is one. The last
   time goes into the first of the two places. */
static void merge_all(void)
{
    struct run runs[MOST];
    unsigned place = 0, count = processors(), times = 0;
    for (unsigned part = 0; part < count; part += 1) {
        const unsigned *from = &bounds[part].from[processor()];
        place += from[0] - first_of(SIZE, part);
        runs[part] = (struct run){&keys[from[0]], &keys[from[1]]};
    }
    for (unsigned left = count; left > 1; left = (left + 1) / 2)
        times += 1;
    for (times = times == 0 ? 1 : times; times > 0; times -= 1) {
        unsigned *at = &merged[1 - times % 2][place], left = 0;
        for (unsigned k = 0; k < count; k += 2) {
            struct run none = {0, 0};
            unsigned *end = merge(runs[k], k + 1 < count ? runs[k + 1] : none, at);
            runs[left++] = (struct run){at, end};
            at = end;
        }
        count = left;
    }
}

static void check(unsigned from, unsigned to)
{
    unsigned sum = 0, wrong = 0, all = 0;
    const unsigned *sorted = merged[0];
    for (unsigned k = from; k < to; k += 1) {
        wrong += k != 0 && sorted[k - 1] > sorted[k];
        all += sorted[k];
        sum += at_place(k, sorted[k]);
    }
    fetch_and_add(&after, all);
    tell(sum, wrong);
}

static void work(void *unused)
{
    unsigned from = first_of(SIZE, processor()), to = first_of(SIZE, processor() + 1);
    (void)unused;
    fill(from, to);
    meet(&barrier, processors());
    phase(1);
    sort(&keys[from], to - from);
    show_samples(from, to);
    meet(&barrier, processors());
    find_bounds(from, to);
    meet(&barrier, processors());
    merge_all();
    meet(&barrier, processors());
    phase(2);
    check(from, to);
}

int main(void)
{
    parallel(work, 0);
    tell(0, before != after);
    return report("sample");
}
