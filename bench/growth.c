/* What a line costs that others have: TURNS turns of WHAT, after some that bring all lines to where
   they are used. */
#include "shasta_short.h"

#ifndef TURNS
#define TURNS 20
#endif

enum { FIRST = 4 };

static struct barrier barrier;
static unsigned word IN_OWN_LINE;
static volatile unsigned seen;

/* Two barriers, which each turn of `shares` has, too. */
static void meets(void *turns)
{
    for (unsigned k = 0; k < *(unsigned *)turns; k += 1) {
        meet(&barrier, processors());
        meet(&barrier, processors());
    }
}

/* Processor 0 writes a word that all others have read; then all others read it. */
static void shares(void *turns)
{
    for (unsigned k = 0; k < *(unsigned *)turns; k += 1) {
        if (processor() == 0)
            __atomic_store_n(&word, k, __ATOMIC_RELAXED);
        meet(&barrier, processors());
        if (processor() != 0 && __atomic_load_n(&word, __ATOMIC_RELAXED) > k)
            seen = k;
        meet(&barrier, processors());
    }
}

int main(void)
{
    unsigned first = FIRST, turns = TURNS;
    (void)meets, (void)shares;
    parallel(WHAT, &first);
    parallel(WHAT, &turns);
    return 0;
}
