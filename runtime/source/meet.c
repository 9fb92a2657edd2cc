/* A barrier. Where all processors meet it is by dissemination: in each round a processor says that
   it has come to one that is twice as far as in the round before, or as far as it has to be in the
   last round, so in the end each has heard of all. All barriers of all processors have the one set
   of words, since all come to each: they are counted. Else who comes is counted, and the last one
   begins the next round. */
#include "home.h"

void __shasta_meet_all(void (*rest)(void))
{
    unsigned episode = own.episode + 1;
    own.episode = episode;
    for (unsigned round = 0; 1u << round < own.count; round += 1) {
        unsigned heard = 1u << round, lacking = own.count - heard;
        unsigned before = own.number + own.count - (heard < lacking ? heard : lacking);
        unsigned *other = &home_of(before)->arrived[round].episode;
        __atomic_store_n(&own.home->arrived[round].episode, episode, __ATOMIC_RELEASE);
        while ((int)(__atomic_load_n(other, __ATOMIC_ACQUIRE) - episode) < 0)
            rest();
    }
}

static void meet_some(struct shasta_barrier *barrier, unsigned count)
{
    unsigned round = __atomic_load_n(&barrier->round, __ATOMIC_ACQUIRE);
    if (__atomic_add_fetch(&barrier->arrived, 1, __ATOMIC_ACQ_REL) == count) {
        __atomic_store_n(&barrier->arrived, 0, __ATOMIC_RELAXED);
        __atomic_store_n(&barrier->round, round + 1, __ATOMIC_RELEASE);
        return;
    }
    while (__atomic_load_n(&barrier->round, __ATOMIC_ACQUIRE) == round)
        shasta_rest();
}

void shasta_meet(struct shasta_barrier *barrier, unsigned count)
{
    if (own.in_parallel && count == own.count)
        __shasta_meet_all(shasta_rest);
    else
        meet_some(barrier, count);
}
