/* The locks of <omp.h>. */
#include "omp.h"

#include "../shasta.specs.d/omp.h"

void omp_init_lock(omp_lock_t *lock)
{
    *lock = (omp_lock_t){{0, 0}};
}

void omp_init_lock_with_hint(omp_lock_t *lock, omp_sync_hint_t hint)
{
    (void)hint;
    omp_init_lock(lock);
}

void omp_destroy_lock(omp_lock_t *lock)
{
    (void)lock;
}

void omp_set_lock(omp_lock_t *lock)
{
    __shasta_queue_enter(&lock->queue);
}

void omp_unset_lock(omp_lock_t *lock)
{
    __shasta_queue_leave(&lock->queue);
}

int omp_test_lock(omp_lock_t *lock)
{
    if (__shasta_queue_try(&lock->queue))
        return 1;
    shasta_rest();
    return 0;
}

void omp_init_nest_lock(omp_nest_lock_t *lock)
{
    *lock = (omp_nest_lock_t){{0, 0}, 0, 0};
}

void omp_init_nest_lock_with_hint(omp_nest_lock_t *lock, omp_sync_hint_t hint)
{
    (void)hint;
    omp_init_nest_lock(lock);
}

void omp_destroy_nest_lock(omp_nest_lock_t *lock)
{
    (void)lock;
}

static bool holds(omp_nest_lock_t *lock)
{
    return __atomic_load_n(&lock->holder, __ATOMIC_RELAXED) == __shasta_task();
}

void omp_set_nest_lock(omp_nest_lock_t *lock)
{
    if (!holds(lock)) {
        __shasta_queue_enter(&lock->queue);
        __atomic_store_n(&lock->holder, __shasta_task(), __ATOMIC_RELAXED);
    }
    lock->depth += 1;
}

void omp_unset_nest_lock(omp_nest_lock_t *lock)
{
    lock->depth -= 1;
    if (lock->depth != 0)
        return;
    __atomic_store_n(&lock->holder, 0, __ATOMIC_RELAXED);
    __shasta_queue_leave(&lock->queue);
}

int omp_test_nest_lock(omp_nest_lock_t *lock)
{
    if (!holds(lock)) {
        if (!__shasta_queue_try(&lock->queue)) {
            shasta_rest();
            return 0;
        }
        __atomic_store_n(&lock->holder, __shasta_task(), __ATOMIC_RELAXED);
    }
    lock->depth += 1;
    return lock->depth;
}
