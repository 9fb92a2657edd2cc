/* Water by OpenMP: what water.c does, by loops with pragmas. A thread finds the forces of its
   molecules' pairs in a place of its own and hands them out; then each thread adds up what all have
   found for its molecules, and moves them.

   Layout: as that of water.c. */
#include "water.h"

#include <omp.h>

static struct force forces[MOST][SIZE] __attribute__((aligned(4096)));
static struct force speeds[2][SIZE] __attribute__((aligned(4096)));

/* Finds the forces of all pairs, by a thread of a region. */
static void find(void)
{
    struct force found[SIZE];
    clear(found);
#pragma omp for schedule(static) nowait
    for (unsigned one = 0; one < SIZE; one += 1)
        find_pairs(one, found);
    for (unsigned one = 0; one < SIZE; one += 1)
        forces[omp_get_thread_num()][one] = found[one];
#pragma omp barrier
}

/* Adds up what all have found for a molecule. */
static struct force gather(unsigned one)
{
    unsigned threads = (unsigned)omp_get_num_threads(), own = (unsigned)omp_get_thread_num();
    struct force sum = {{0}, 0};
    for (unsigned k = 0; k < threads; k += 1)
        add(&sum, forces[(own + k) % threads][one]);
    return sum;
}

static void move_all(void)
{
#pragma omp parallel num_threads(processors())
    for (unsigned step = 0; step < STEPS; step += 1) {
        find();
#pragma omp for schedule(static)
        for (unsigned one = 0; one < SIZE; one += 1)
            move(&molecules[one], &speeds[0][one], gather(one));
    }
}

/* The same steps, where each finds all forces on its molecules. */
static void move_alone(void)
{
    static struct force sums[SIZE];
#pragma omp parallel
    for (unsigned step = 0; step < STEPS; step += 1) {
#pragma omp for schedule(static)
        for (unsigned one = 0; one < SIZE; one += 1)
            sums[one] = all_forces(one);
#pragma omp for schedule(static)
        for (unsigned one = 0; one < SIZE; one += 1)
            move(&alone[one], &speeds[1][one], sums[one]);
    }
}

int main(void)
{
    unsigned sum = 0, wrong = 0;
#pragma omp parallel for schedule(static)
    for (unsigned one = 0; one < SIZE; one += 1)
        place(one);
    phase(1);
    move_all();
    phase(2);
    move_alone();
#pragma omp parallel for schedule(static) reduction(+ : sum, wrong)
    for (unsigned one = 0; one < SIZE; one += 1)
        wrong += check(one, &sum);
    tell(sum, wrong);
    return report("water");
}
