/* Each pushes cells on a stack that all share and takes cells from it, by a compare and exchange of its head, whose upper
   half counts the exchanges, so that a cell that is there again isn't taken for the same. */
#include "common.h"

enum { CELLS = 16, ROUNDS = 30 };

static unsigned head LINE;
static unsigned short below[16 * CELLS + 1] LINE;
static unsigned taken LINE;

static void push(unsigned cell)
{
    unsigned old = __atomic_load_n(&head, __ATOMIC_RELAXED);
    do {
        below[cell] = (unsigned short)old;
    } while (!__atomic_compare_exchange_n(&head, &old, (old & 0xffff0000u) + 0x10000u + cell, 0, __ATOMIC_ACQ_REL,
        __ATOMIC_RELAXED));
}

static unsigned pop(void)
{
    unsigned old = __atomic_load_n(&head, __ATOMIC_ACQUIRE);
    do {
        if ((old & 0xffff) == 0)
            return 0;
    } while (!__atomic_compare_exchange_n(&head, &old, (old & 0xffff0000u) + 0x10000u + below[old & 0xffff], 0,
        __ATOMIC_ACQ_REL, __ATOMIC_ACQUIRE));
    return old & 0xffff;
}

int main(int me, int count)
{
    unsigned held[CELLS], many = CELLS;
    for (int k = 0; k < CELLS; k += 1)
        held[k] = (unsigned)(me * CELLS + k + 1);
    for (int round = 0; round < ROUNDS; round += 1) {
        for (; many > 0; many -= 1)
            push(held[many - 1]);
        for (int k = 0; k < CELLS; k += 1) {
            unsigned cell = pop();
            if (cell != 0)
                held[many++] = cell;
        }
    }
    __atomic_add_fetch(&taken, many, __ATOMIC_RELAXED);
    meet((unsigned)count);
    if (me != 0)
        return 0;
    while (pop() != 0)
        taken += 1;
    return taken == (unsigned)count * CELLS ? 0 : 1;
}
