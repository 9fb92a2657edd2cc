/* Water, all pairs: molecules repel each other. A processor has a part of the molecules. It finds
   the forces of the pairs that begin with its own, in a place of its own, and hands them out; then
   each adds up what all have found for its own, and moves them. No lock is needed. All numbers are
   whole, so every order of the sums gives the same. In the check each processor finds all forces on
   its molecules itself.

   Layout: the molecules that a processor moves are at home there, and all read them; so are the
   forces that it hands out, of which each other reads its part. */
#include "water.h"

static struct force forces[MOST][SIZE] __attribute__((aligned(4096)));
static struct barrier barrier;

/* Hands out what was found for those from the processor's first on, as far as there is any. */
static void hand_out(unsigned from, unsigned to, const struct force found[SIZE])
{
    unsigned count = to - from + HALF < SIZE ? to - from + HALF : SIZE;
    for (unsigned k = 0; k < count; k += 1) {
        unsigned one = from + k < SIZE ? from + k : from + k - SIZE;
        forces[processor()][one] = found[one];
    }
}

/* Adds up what all have found for a molecule: others, if it is within their reach. */
static struct force gather(unsigned one)
{
    struct force sum = {{0}, 0};
    for (unsigned k = 0; k < processors(); k += 1) {
        unsigned other = (processor() + k) % processors();
        unsigned from = first_of(SIZE, other), count = first_of(SIZE, other + 1) - from + HALF;
        if ((one + SIZE - from) % SIZE < count)
            add(&sum, forces[other][one]);
    }
    return sum;
}

/* Moves a processor's molecules some steps. */
static void move_all(unsigned from, unsigned to, struct force *speeds)
{
    struct force found[SIZE];
    for (unsigned step = 0; step < STEPS; step += 1) {
        clear(found);
        for (unsigned one = from; one < to; one += 1)
            find_pairs(one, found);
        hand_out(from, to, found);
        meet(&barrier, processors());
        for (unsigned one = from; one < to; one += 1)
            move(&molecules[one], &speeds[one - from], gather(one));
        meet(&barrier, processors());
    }
}

/* The same steps, where each finds all forces on its molecules. */
static void move_alone(unsigned from, unsigned to, struct force *speeds)
{
    struct force sums[SIZE];
    for (unsigned step = 0; step < STEPS; step += 1) {
        for (unsigned one = from; one < to; one += 1)
            sums[one] = all_forces(one);
        meet(&barrier, processors());
        for (unsigned one = from; one < to; one += 1)
            move(&alone[one], &speeds[one - from], sums[one]);
        meet(&barrier, processors());
    }
}

static void work(void *unused)
{
    unsigned from = first_of(SIZE, processor()), to = first_of(SIZE, processor() + 1);
    unsigned sum = 0, wrong = 0;
    struct force speeds[SIZE] = {{{0}, 0}}, others[SIZE] = {{{0}, 0}};
    (void)unused;
    for (unsigned one = from; one < to; one += 1)
        place(one);
    meet(&barrier, processors());
    phase(1);
    move_all(from, to, speeds);
    phase(2);
    move_alone(from, to, others);
    for (unsigned one = from; one < to; one += 1)
        wrong += check(one, &sum);
    tell(sum, wrong);
}

int main(void)
{
    parallel(work, 0);
    return report("water");
}
