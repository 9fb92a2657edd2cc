/* The mutex of <pthread.h>: a queue, and who holds it, where that matters. */
#include "clock.h"
#include "own.h"

#include <errno.h>
#include <pthread.h>

int pthread_mutex_init(pthread_mutex_t *mutex, const pthread_mutexattr_t *attributes)
{
    int kind = attributes != 0 ? attributes->kind : PTHREAD_MUTEX_DEFAULT;
    *mutex = (pthread_mutex_t){.kind = kind};
    return 0;
}

int pthread_mutex_destroy(pthread_mutex_t *mutex)
{
    return __atomic_load_n(&mutex->queue.last, __ATOMIC_RELAXED) != 0 ? EBUSY : 0;
}

/* A thread is known by where it waits for locks. */
static bool holds(pthread_mutex_t *mutex)
{
    return __atomic_load_n(&mutex->holder, __ATOMIC_RELAXED) == own.places;
}

static void hold(pthread_mutex_t *mutex)
{
    if (mutex->kind == PTHREAD_MUTEX_NORMAL)
        return;
    __atomic_store_n(&mutex->holder, own.places, __ATOMIC_RELAXED);
    mutex->depth = 1;
}

/* Whether all is said by an error, or by 0 where it is held once more; else -1. */
static int again(pthread_mutex_t *mutex, int busy)
{
    if (mutex->kind == PTHREAD_MUTEX_NORMAL || !holds(mutex))
        return -1;
    if (mutex->kind == PTHREAD_MUTEX_ERRORCHECK)
        return busy;
    mutex->depth += 1;
    return 0;
}

int pthread_mutex_lock(pthread_mutex_t *mutex)
{
    int said = again(mutex, EDEADLK);
    if (said >= 0)
        return said;
    __shasta_queue_enter(&mutex->queue);
    hold(mutex);
    return 0;
}

int pthread_mutex_trylock(pthread_mutex_t *mutex)
{
    int said = again(mutex, EBUSY);
    if (said >= 0)
        return said;
    if (!__shasta_queue_try(&mutex->queue)) {
        shasta_rest();
        return EBUSY;
    }
    hold(mutex);
    return 0;
}

int pthread_mutex_timedlock(pthread_mutex_t *mutex, const struct timespec *until)
{
    int said = again(mutex, EDEADLK);
    if (said >= 0)
        return said;
    while (!__shasta_queue_try(&mutex->queue))
        if (__shasta_is_past(until))
            return ETIMEDOUT;
    hold(mutex);
    return 0;
}

int pthread_mutex_unlock(pthread_mutex_t *mutex)
{
    if (mutex->kind != PTHREAD_MUTEX_NORMAL) {
        if (!holds(mutex))
            return EPERM;
        mutex->depth -= 1;
        if (mutex->depth != 0)
            return 0;
        __atomic_store_n(&mutex->holder, 0, __ATOMIC_RELAXED);
    }
    __shasta_queue_leave(&mutex->queue);
    return 0;
}

int pthread_mutexattr_init(pthread_mutexattr_t *attributes)
{
    *attributes = (pthread_mutexattr_t){PTHREAD_MUTEX_DEFAULT};
    return 0;
}

int pthread_mutexattr_destroy(pthread_mutexattr_t *attributes)
{
    (void)attributes;
    return 0;
}

int pthread_mutexattr_settype(pthread_mutexattr_t *attributes, int kind)
{
    if (kind < PTHREAD_MUTEX_NORMAL || kind > PTHREAD_MUTEX_ERRORCHECK)
        return EINVAL;
    attributes->kind = kind;
    return 0;
}

int pthread_mutexattr_gettype(const pthread_mutexattr_t *attributes, int *kind)
{
    *kind = attributes->kind;
    return 0;
}
