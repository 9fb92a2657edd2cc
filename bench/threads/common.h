/* What the programs share: a barrier, and lines of their own. */
#include "../../examples/bare.h"

#define LINE __attribute__((aligned(64)))

static struct {
    unsigned arrived;
    unsigned round;
} barrier LINE;

static inline void meet(unsigned count)
{
    unsigned round = __atomic_load_n(&barrier.round, __ATOMIC_ACQUIRE);
    if (__atomic_add_fetch(&barrier.arrived, 1, __ATOMIC_ACQ_REL) == count) {
        __atomic_store_n(&barrier.arrived, 0, __ATOMIC_RELAXED);
        __atomic_store_n(&barrier.round, round + 1, __ATOMIC_RELEASE);
        return;
    }
    while (__atomic_load_n(&barrier.round, __ATOMIC_ACQUIRE) == round)
        ;
}

/* A product, which the compiler asks for where an instruction is missing. */
unsigned __mulsi3(unsigned a, unsigned b)
{
    unsigned product = 0;
    for (; b != 0; b >>= 1, a <<= 1)
        if (b & 1)
            product += a;
    return product;
}
