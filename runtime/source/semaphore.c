/* POSIX semaphores. */
#include "clock.h"
#include "shasta.h"

#include <errno.h>
#include <semaphore.h>

static int fails(int error)
{
    errno = error;
    return -1;
}

int sem_init(sem_t *semaphore, int is_shared, unsigned value)
{
    (void)is_shared;
    if (value > SEM_VALUE_MAX)
        return fails(EINVAL);
    semaphore->value = value;
    return 0;
}

int sem_destroy(sem_t *semaphore)
{
    (void)semaphore;
    return 0;
}

static bool take(sem_t *semaphore)
{
    unsigned value = __atomic_load_n(&semaphore->value, __ATOMIC_RELAXED);
    while (value != 0)
        if (__atomic_compare_exchange_n(&semaphore->value, &value, value - 1, 0, __ATOMIC_ACQUIRE,
                                        __ATOMIC_RELAXED))
            return true;
    return false;
}

int sem_wait(sem_t *semaphore)
{
    while (!take(semaphore))
        shasta_rest();
    return 0;
}

int sem_trywait(sem_t *semaphore)
{
    if (take(semaphore))
        return 0;
    shasta_rest();
    return fails(EAGAIN);
}

int sem_timedwait(sem_t *semaphore, const struct timespec *until)
{
    while (!take(semaphore))
        if (__shasta_is_past(until))
            return fails(ETIMEDOUT);
    return 0;
}

int sem_post(sem_t *semaphore)
{
    if (__atomic_fetch_add(&semaphore->value, 1, __ATOMIC_RELEASE) < SEM_VALUE_MAX)
        return 0;
    __atomic_fetch_sub(&semaphore->value, 1, __ATOMIC_RELAXED);
    return fails(EOVERFLOW);
}

int sem_getvalue(sem_t *semaphore, int *value)
{
    *value = (int)__atomic_load_n(&semaphore->value, __ATOMIC_ACQUIRE);
    return 0;
}
