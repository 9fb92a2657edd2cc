/* Locks of which each processor holds many at once: more than it has places to wait at, in an order in
   which each may come first; a lock that is tried; and barriers of all and of some. */
#include "shasta_short.h"

#include <stdio.h>

enum { LOCKS = 20, ROUNDS = 4 };

static struct lock locks[LOCKS];
static unsigned counts[LOCKS];
static struct barrier all, even;
static unsigned tried, wrong;

/* Enters so many locks from the first on, counts under each, and leaves them, the first one first. */
static void hold(unsigned first, unsigned count)
{
    for (unsigned k = first; k < first + count; k += 1)
        enter(&locks[k]);
    for (unsigned k = first; k < first + count; k += 1) {
        counts[k] += 1;
        leave(&locks[k]);
    }
}

static void try_all(void)
{
    for (unsigned k = 0; k < LOCKS; k += 1)
        if (try_enter(&locks[k])) {
            counts[k] += 1;
            leave(&locks[k]);
            fetch_and_add(&tried, 1);
        }
}

static void work(void *unused)
{
    (void)unused;
    for (unsigned round = 0; round < ROUNDS; round += 1) {
        hold(0, LOCKS);
        hold(processor() % LOCKS / 2, LOCKS / 2);
        try_all();
        if (processor() % 2 == 0)
            meet(&even, (processors() + 1) / 2);
        meet(&all, processors());
        if (!try_enter(&locks[processor()]))
            fetch_and_add(&wrong, 1);
        meet(&all, processors());
        leave(&locks[processor()]);
        meet(&all, processors());
    }
}

int main(void)
{
    parallel(work, 0);
    unsigned sum = 0;
    for (unsigned k = 0; k < LOCKS; k += 1)
        sum += counts[k];
    unsigned expected = processors() * ROUNDS * (LOCKS + LOCKS / 2) + tried;
    printf("missing %u, wrong %u\n", expected - sum, wrong);
    return 0;
}
