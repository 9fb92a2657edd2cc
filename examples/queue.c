/* A bounded queue without a lock, of which each processor is a writer and a reader: the processors put in
   the numbers 1 to 200 and take them out, until all are out; then processor 0 prints how many came, how
   many of them came twice, and their sum. A cell's turn says who is next at it: a writer, or a reader. */
#include "bare.h"

enum { NUMBERS = 200, CELLS = 8 };

struct cell {
    unsigned turn;
    unsigned number;
};

static struct cell cells[CELLS] __attribute__((aligned(64)));
static unsigned tail __attribute__((aligned(64)));
static unsigned head __attribute__((aligned(64)));

static struct {
    unsigned ready;
    unsigned taken;
    unsigned sum;
    unsigned twice;
    unsigned seen[NUMBERS / 32 + 1];
} result __attribute__((aligned(64)));

/* The place at an end of the queue whose cell has the turn of so much after it, and goes to the caller;
   none where the cell is behind. */
static int claim(unsigned *end, unsigned after, unsigned *place)
{
    unsigned at = __atomic_load_n(end, __ATOMIC_RELAXED);
    for (;;) {
        unsigned turn = __atomic_load_n(&cells[at % CELLS].turn, __ATOMIC_ACQUIRE);
        int ahead = (int)(turn - (at + after));
        if (ahead < 0)
            return 0;
        if (ahead > 0) {
            at = __atomic_load_n(end, __ATOMIC_RELAXED);
        } else if (__atomic_compare_exchange_n(end, &at, at + 1, 0, __ATOMIC_RELAXED, __ATOMIC_RELAXED)) {
            *place = at;
            return 1;
        }
    }
}

/* Puts a number in, where there is room. */
static int put(unsigned number)
{
    unsigned at;
    if (!claim(&tail, 0, &at))
        return 0;
    cells[at % CELLS].number = number;
    __atomic_store_n(&cells[at % CELLS].turn, at + 1, __ATOMIC_RELEASE);
    return 1;
}

/* Takes a number out, where there is one. */
static int take(unsigned *number)
{
    unsigned at;
    if (!claim(&head, 1, &at))
        return 0;
    *number = cells[at % CELLS].number;
    __atomic_store_n(&cells[at % CELLS].turn, at + CELLS, __ATOMIC_RELEASE);
    return 1;
}

static void count_in(unsigned number)
{
    unsigned bit = 1u << (number % 32);
    if (__atomic_fetch_or(&result.seen[number / 32], bit, __ATOMIC_RELAXED) & bit)
        __atomic_fetch_add(&result.twice, 1, __ATOMIC_RELAXED);
    __atomic_fetch_add(&result.sum, number, __ATOMIC_RELAXED);
    __atomic_fetch_add(&result.taken, 1, __ATOMIC_ACQ_REL);
}

int main(int me, int count)
{
    if (me == 0) {
        for (unsigned k = 0; k < CELLS; k += 1)
            cells[k].turn = k;
        __atomic_store_n(&result.ready, 1, __ATOMIC_RELEASE);
    }
    while (!__atomic_load_n(&result.ready, __ATOMIC_ACQUIRE))
        ;
    unsigned next = 1 + (unsigned)me;
    while (__atomic_load_n(&result.taken, __ATOMIC_ACQUIRE) < NUMBERS) {
        unsigned number;
        if (next <= NUMBERS && put(next))
            next += (unsigned)count;
        if (take(&number))
            count_in(number);
    }
    if (me != 0)
        return 0;
    print("numbers", result.taken);
    print("twice", result.twice);
    print("sum", result.sum);
    return 0;
}
