/* Accounts that the processors share: each moves money between them in rounds, under one lock, and meets
   the others at a barrier behind every round; then processor 0 prints what is in the accounts. The lock
   gives tickets and serves them in their order. */
#include "bare.h"

enum { ACCOUNTS = 5, FIRST = 1000, ROUNDS = 6, MOVES = 4 };

/* Each in a line of memory of its own. */
static struct {
    unsigned next;
    unsigned serving;
} lock __attribute__((aligned(64)));

static struct {
    unsigned arrived;
    unsigned round;
} barrier __attribute__((aligned(64)));

static struct {
    unsigned money[ACCOUNTS];
    unsigned moves;
} bank __attribute__((aligned(64)));

static void enter(void)
{
    unsigned ticket = __atomic_fetch_add(&lock.next, 1, __ATOMIC_RELAXED);
    while (__atomic_load_n(&lock.serving, __ATOMIC_ACQUIRE) != ticket)
        ;
}

static void leave(void)
{
    __atomic_store_n(&lock.serving, lock.serving + 1, __ATOMIC_RELEASE);
}

static void meet(unsigned count)
{
    unsigned round = __atomic_load_n(&barrier.round, __ATOMIC_ACQUIRE);
    if (__atomic_add_fetch(&barrier.arrived, 1, __ATOMIC_ACQ_REL) == count) {
        __atomic_store_n(&barrier.arrived, 0, __ATOMIC_RELAXED);
        __atomic_store_n(&barrier.round, round + 1, __ATOMIC_RELEASE);
        return;
    }
    while (__atomic_load_n(&barrier.round, __ATOMIC_ACQUIRE) == round)
        ;
}

/* Moves a sum from an account to the next one. */
static void move(unsigned from, unsigned sum)
{
    unsigned to = from + 1 == ACCOUNTS ? 0 : from + 1;
    enter();
    if (bank.money[from] >= sum) {
        bank.money[from] -= sum;
        bank.money[to] += sum;
    }
    bank.moves += 1;
    leave();
}

int main(int me, int count)
{
    if (me == 0) {
        for (unsigned account = 0; account < ACCOUNTS; account += 1)
            bank.money[account] = FIRST;
    }
    meet((unsigned)count);
    unsigned from = (unsigned)me & 3;
    for (unsigned round = 0; round < ROUNDS; round += 1) {
        for (unsigned k = 0; k < MOVES; k += 1) {
            move(from, 10 * round + (unsigned)me + 1);
            from = from + 1 == ACCOUNTS ? 0 : from + 1;
        }
        meet((unsigned)count);
    }
    if (me != 0)
        return 0;
    unsigned total = 0;
    for (unsigned account = 0; account < ACCOUNTS; account += 1)
        total += bank.money[account];
    print("moves", bank.moves);
    print("money", total);
    return 0;
}
