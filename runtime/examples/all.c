/* shasta_short.h: work for all processors, a lock, a barrier and an addition. */
#include "shasta_short.h"

#include <stdio.h>

enum { ROUNDS = 5 };

static struct lock lock;
static struct barrier barrier;
static unsigned guarded, added, unequal;

static void work(void *given)
{
    unsigned *ends = given;
    for (unsigned round = 1; round <= ROUNDS; round += 1) {
        enter(&lock);
        guarded += 1;
        leave(&lock);
        fetch_and_add(&added, 2);
        meet(&barrier, processors());
        if (guarded != round * processors() || added != 2 * guarded)
            fetch_and_add(&unequal, 1);
        meet(&barrier, processors());
    }
    fetch_and_add(ends, 1);
}

int main(void)
{
    unsigned ends = 0;
    parallel(work, &ends);
    parallel(work, &ends);
    printf("unequal %u, missing %u\n", unequal - processors() * ROUNDS, 2 * processors() - ends);
    return 0;
}
