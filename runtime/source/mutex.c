/* The mutex of <threads.h>: a queue, and who holds it, where that matters. */
#include "clock.h"
#include "own.h"

#include "threads.h"

int mtx_init(mtx_t *mutex, int kind)
{
    *mutex = (mtx_t){.kind = kind};
    return thrd_success;
}

/* Whether this one has it already, and may take it again: it is known by where it waits. */
static int takes_again(mtx_t *mutex)
{
    if (!(mutex->kind & mtx_recursive))
        return 0;
    if (__atomic_load_n(&mutex->holder, __ATOMIC_RELAXED) != own.places)
        return 0;
    mutex->depth += 1;
    return 1;
}

static void hold(mtx_t *mutex)
{
    if (!(mutex->kind & mtx_recursive))
        return;
    __atomic_store_n(&mutex->holder, own.places, __ATOMIC_RELAXED);
    mutex->depth = 1;
}

int mtx_lock(mtx_t *mutex)
{
    if (takes_again(mutex))
        return thrd_success;
    __shasta_queue_enter(&mutex->queue);
    hold(mutex);
    return thrd_success;
}

int mtx_trylock(mtx_t *mutex)
{
    if (takes_again(mutex))
        return thrd_success;
    if (!__shasta_queue_try(&mutex->queue)) {
        shasta_rest();
        return thrd_busy;
    }
    hold(mutex);
    return thrd_success;
}

int mtx_timedlock(mtx_t *restrict mutex, const struct timespec *restrict until)
{
    while (mtx_trylock(mutex) != thrd_success)
        if (__shasta_is_past(until))
            return thrd_timedout;
    return thrd_success;
}

int mtx_unlock(mtx_t *mutex)
{
    if (mutex->kind & mtx_recursive) {
        mutex->depth -= 1;
        if (mutex->depth != 0)
            return thrd_success;
        __atomic_store_n(&mutex->holder, 0, __ATOMIC_RELAXED);
    }
    __shasta_queue_leave(&mutex->queue);
    return thrd_success;
}

void mtx_destroy(mtx_t *mutex)
{
    (void)mutex;
}
