/* A turn of a loop that waits. */
#include "home.h"

void shasta_rest(void)
{
    polls();
    if (__shasta_turn && __atomic_load_n(&own.home->called, __ATOMIC_RELAXED))
        __shasta_turn();
}
