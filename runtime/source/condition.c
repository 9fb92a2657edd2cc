/* The condition of <threads.h>. */
#include "tickets.h"

#include "threads.h"

int cnd_init(cnd_t *condition)
{
    *condition = (cnd_t){0};
    return thrd_success;
}

int cnd_wait(cnd_t *condition, mtx_t *mutex)
{
    unsigned ticket = __shasta_take_ticket(&condition->tickets);
    mtx_unlock(mutex);
    __shasta_wait_for_ticket(&condition->tickets, ticket);
    return mtx_lock(mutex);
}

int cnd_timedwait(cnd_t *restrict condition, mtx_t *restrict mutex,
                  const struct timespec *restrict until)
{
    unsigned before = __shasta_look_at_signals(&condition->tickets);
    mtx_unlock(mutex);
    bool signalled = __shasta_wait_for_signal(&condition->tickets, before, until);
    mtx_lock(mutex);
    return signalled ? thrd_success : thrd_timedout;
}

int cnd_signal(cnd_t *condition)
{
    __shasta_serve(&condition->tickets, 1);
    return thrd_success;
}

int cnd_broadcast(cnd_t *condition)
{
    __shasta_serve(&condition->tickets, ~0u);
    return thrd_success;
}

void cnd_destroy(cnd_t *condition)
{
    (void)condition;
}
