/* The travelling salesman by branch and bound: the shortest way through all towns and back.
   Processors take the ways of four towns one by one and go on by depth, and give up where a way is
   no shorter than the best so far. Each has its own of them, and takes those of others when it has
   no more. The first bound is a way that always goes to the nearest town. Processor 0 finds the
   length alone, by the shortest ways through each set of towns.

   Layout: the distances are written once and read by all, so one block brings them by one request;
   the best length has a line of its own, since it is read at each branch. */
#include "kernel.h"

#ifndef SIZE
#define SIZE 8
#endif
enum { ALL = (1 << SIZE) - 1, SETS = 1 << (SIZE - 1), WAYS = SIZE * SIZE * SIZE };

static unsigned distance[SIZE][SIZE] __attribute__((aligned(1024)));
static unsigned through[SETS][SIZE] __attribute__((aligned(4096)));
static unsigned best IN_OWN_LINE;
static struct {
    unsigned taken IN_OWN_LINE;
} ways[MOST];
static struct barrier barrier;

static void lower_best(unsigned length)
{
    unsigned before = __atomic_load_n(&best, __ATOMIC_RELAXED);
    while (length < before
           && !__atomic_compare_exchange_n(&best, &before, length, 0, __ATOMIC_RELAXED,
                                           __ATOMIC_RELAXED))
        ;
}

/* Goes on from a town, where the towns of the mask have been passed. */
static void go_on(unsigned town, unsigned passed, unsigned length)
{
    if (length >= __atomic_load_n(&best, __ATOMIC_RELAXED))
        return;
    if (passed == ALL) {
        lower_best(length + distance[town][0]);
        return;
    }
    for (unsigned next = 1; next < SIZE; next += 1)
        if (!(passed >> next & 1))
            go_on(next, passed | 1u << next, length + distance[town][next]);
}

/* The length of a way that goes to the nearest town each time. */
static unsigned nearest_way(void)
{
    unsigned town = 0, passed = 1, length = 0;
    while (passed != ALL) {
        unsigned nearest = 0;
        for (unsigned next = 1; next < SIZE; next += 1)
            if (!(passed >> next & 1)
                && (nearest == 0 || distance[town][next] < distance[town][nearest]))
                nearest = next;
        length += distance[town][nearest];
        passed |= 1u << nearest;
        town = nearest;
    }
    return length + distance[town][0];
}

/* Goes one way of four towns, where there is such a way. */
static void go(unsigned way)
{
    unsigned towns[4] = {0, way / (SIZE * SIZE), way / SIZE % SIZE, way % SIZE};
    unsigned passed = 1, length = 0;
    for (unsigned k = 1; k < 4; k += 1) {
        if (passed >> towns[k] & 1)
            return;
        passed |= 1u << towns[k];
        length += distance[towns[k - 1]][towns[k]];
    }
    go_on(towns[3], passed, length);
}

/* Goes the ways of all processors, its own first: every so many is one's own. */
static void go_all(void)
{
    for (unsigned k = 0; k < processors(); k += 1) {
        unsigned owner = (processor() + k) % processors();
        for (;;) {
            unsigned way = owner + processors() * fetch_and_add(&ways[owner].taken, 1);
            if (way >= WAYS)
                break;
            go(way);
        }
    }
}

static void fill(void)
{
    unsigned seed = 3;
    for (unsigned from = 0; from < SIZE; from += 1)
        for (unsigned to = 0; to < from; to += 1) {
            seed = next_of(seed);
            distance[from][to] = distance[to][from] = 10 + (seed >> 16) % 90;
        }
    best = nearest_way() + 1;
}

/* The shortest way, of the shortest that go through a set of towns, but the first, to each. */
static unsigned shortest(void)
{
    unsigned least = ~0u;
    for (unsigned set = 1; set < SETS; set += 1)
        for (unsigned town = 1; town < SIZE; town += 1) {
            unsigned before = set & ~(1u << (town - 1)), length = ~0u;
            if (before == set)
                continue;
            if (before == 0)
                length = distance[0][town];
            for (unsigned from = 1; from < SIZE; from += 1)
                if (before >> (from - 1) & 1
                    && through[before][from] + distance[from][town] < length)
                    length = through[before][from] + distance[from][town];
            through[set][town] = length;
            if (set == SETS - 1 && length + distance[town][0] < least)
                least = length + distance[town][0];
        }
    return least;
}

static void work(void *unused)
{
    (void)unused;
    if (processor() == 0)
        fill();
    meet(&barrier, processors());
    phase(1);
    go_all();
    meet(&barrier, processors());
    phase(2);
}

int main(void)
{
    parallel(work, 0);
    tell(best, best != shortest());
    return report("salesman");
}
