/* Conditions, by tickets. */
#include "tickets.h"

#include "clock.h"
#include "shasta.h"

unsigned __shasta_take_ticket(struct shasta_tickets *tickets)
{
    return __atomic_fetch_add(&tickets->taken, 1, __ATOMIC_ACQ_REL);
}

void __shasta_wait_for_ticket(struct shasta_tickets *tickets, unsigned ticket)
{
    while ((int)(__atomic_load_n(&tickets->served, __ATOMIC_ACQUIRE) - ticket) <= 0)
        shasta_rest();
}

unsigned __shasta_look_at_signals(struct shasta_tickets *tickets)
{
    __atomic_fetch_add(&tickets->timed, 1, __ATOMIC_ACQ_REL);
    return __atomic_load_n(&tickets->signals, __ATOMIC_ACQUIRE);
}

bool __shasta_wait_for_signal(struct shasta_tickets *tickets, unsigned before,
                              const struct timespec *until)
{
    bool signalled = false;
    do
        signalled = __atomic_load_n(&tickets->signals, __ATOMIC_ACQUIRE) != before;
    while (!signalled && !__shasta_is_past(until));
    __atomic_fetch_sub(&tickets->timed, 1, __ATOMIC_ACQ_REL);
    return signalled;
}

void __shasta_serve(struct shasta_tickets *tickets, unsigned most)
{
    if (__atomic_load_n(&tickets->timed, __ATOMIC_ACQUIRE) != 0)
        __atomic_fetch_add(&tickets->signals, 1, __ATOMIC_ACQ_REL);
    unsigned before = __atomic_load_n(&tickets->served, __ATOMIC_ACQUIRE);
    unsigned count;
    do {
        count = __atomic_load_n(&tickets->taken, __ATOMIC_ACQUIRE) - before;
        if (count > most)
            count = most;
    } while (count != 0 &&
             !__atomic_compare_exchange_n(&tickets->served, &before, before + count, 0,
                                          __ATOMIC_ACQ_REL, __ATOMIC_ACQUIRE));
}
