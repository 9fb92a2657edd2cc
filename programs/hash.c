/* A hash table that all processors fill at once: numbers that look like chance are counted. Each
   processor owns a part of the table, and nobody else touches it. A processor puts each of its
   numbers into the box of its owner; then each owner counts what all have put into its boxes. Each
   checks a number of its own, by looking at all.

   Layout: a processor's boxes stand side by side, and its part of the table, too; both are at home
   there. A box is fetched by its owner, so blocks of the size of a box or more bring it by few
   requests. */
#include "kernel.h"

#ifndef SIZE
#define SIZE 4096
#endif
enum { KINDS = SIZE < 8192 ? 251 : 4093, SLOTS = KINDS < 256 ? 1024 : 16384 };

/* A number, and how often it came; a slot that is free has count 0. */
struct slot {
    unsigned key;
    unsigned count;
};

static struct slot table[SLOTS] __attribute__((aligned(4096)));
static unsigned boxes[SIZE] __attribute__((aligned(4096)));
static struct {
    unsigned first[MOST + 1] IN_OWN_LINE;   /* where the box for each owner begins */
} starts[MOST] __attribute__((aligned(4096)));
static struct barrier barrier;
static unsigned all IN_OWN_LINE;

/* Keys come several times each. */
static unsigned key_of(unsigned number)
{
    return next_of(number % KINDS * (number % KINDS)) >> 4;
}

static unsigned slot_of(unsigned key)
{
    return key * 2654435761u >> 8 & (SLOTS - 1);
}

static unsigned owner_of(unsigned slot)
{
    return ((slot + 1) * processors() - 1) / SLOTS;
}

/* Puts the numbers of this processor's part into its boxes. */
static void put(unsigned from, unsigned to)
{
    unsigned places[MOST] = {0}, place = from, *first = starts[processor()].first;
    for (unsigned number = from; number < to; number += 1)
        places[owner_of(slot_of(key_of(number)))] += 1;
    for (unsigned owner = 0; owner < processors(); owner += 1) {
        unsigned count = places[owner];
        first[owner] = places[owner] = place;
        place += count;
    }
    first[processors()] = place;
    for (unsigned number = from; number < to; number += 1) {
        unsigned key = key_of(number);
        boxes[places[owner_of(slot_of(key))]++] = key;
    }
}

/* Counts a key in this processor's part of the table, and says whether there was room. */
static int count(unsigned key, unsigned from, unsigned to)
{
    unsigned slot = slot_of(key);
    for (unsigned tries = from; tries < to; tries += 1) {
        if (table[slot].count == 0)
            table[slot].key = key;
        if (table[slot].key == key) {
            table[slot].count += 1;
            return 1;
        }
        slot = slot + 1 == to ? from : slot + 1;
    }
    return 0;
}

/* Counts what is in the boxes for this processor, its own first. */
static unsigned count_all(unsigned from, unsigned to)
{
    unsigned lost = 0;
    for (unsigned k = 0; k < processors(); k += 1) {
        unsigned other = (processor() + k) % processors();
        const unsigned *first = starts[other].first + processor();
        for (unsigned at = first[0]; at < first[1]; at += 1)
            lost += !count(boxes[at], from, to);
    }
    return lost;
}

/* How often a key comes among all, counted alone. */
static unsigned times(unsigned key)
{
    unsigned count = 0;
    for (unsigned number = 0; number < SIZE; number += 1)
        count += key_of(number) == key;
    return count;
}

static void check(unsigned from, unsigned to, unsigned lost)
{
    unsigned sum = 0, counted = 0, wrong = lost, is_checked = 0;
    for (unsigned slot = from; slot < to; slot += 1) {
        if (table[slot].count == 0)
            continue;
        if (!is_checked)
            wrong += times(table[slot].key) != table[slot].count;
        is_checked = 1;
        sum += at_place(table[slot].key, table[slot].count);
        counted += table[slot].count;
    }
    fetch_and_add(&all, counted);
    tell(sum, wrong);
}

static void work(void *unused)
{
    unsigned from = first_of(SLOTS, processor()), to = first_of(SLOTS, processor() + 1);
    (void)unused;
    for (unsigned slot = from; slot < to; slot += 1)
        table[slot] = (struct slot){0, 0};
    meet(&barrier, processors());
    phase(1);
    put(first_of(SIZE, processor()), first_of(SIZE, processor() + 1));
    meet(&barrier, processors());
    unsigned lost = count_all(from, to);
    meet(&barrier, processors());
    phase(2);
    check(from, to, lost);
}

int main(void)
{
    parallel(work, 0);
    tell(0, all != SIZE);
    return report("hash");
}
