/* A lock that is free is taken by one processor after the other, each time of another node than
   before; then once more by the last, whose node still has it. */
#include "shasta_short.h"

static const unsigned takers[] = {2, 1, 3, 3};

static struct lock lock;

static void take(void *taker)
{
    if (processor() == *(const unsigned *)taker) {
        enter(&lock);
        leave(&lock);
    }
}

int main(void)
{
    for (unsigned k = 0; k < sizeof takers / sizeof takers[0]; k += 1)
        parallel(take, (void *)&takers[k]);
    return 0;
}
