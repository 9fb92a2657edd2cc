/* A processor that never goes on: it waits for what none writes. */
#include "common.h"

static struct { unsigned never; } flag LINE;

int main(int me, int count)
{
    (void)me;
    (void)count;
    while (!__atomic_load_n(&flag.never, __ATOMIC_ACQUIRE))
        ;
    return 0;
}
