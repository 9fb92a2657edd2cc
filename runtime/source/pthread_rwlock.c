/* The lock of <pthread.h> for many who read or one who writes. */
#include "clock.h"
#include "own.h"

#include <errno.h>
#include <pthread.h>

static const unsigned WRITING = 1u << 31;

int pthread_rwlock_init(pthread_rwlock_t *lock, const pthread_rwlockattr_t *attributes)
{
    (void)attributes;
    *lock = (pthread_rwlock_t)PTHREAD_RWLOCK_INITIALIZER;
    return 0;
}

int pthread_rwlock_destroy(pthread_rwlock_t *lock)
{
    return __atomic_load_n(&lock->readers, __ATOMIC_RELAXED) != 0 ? EBUSY : 0;
}

/* Who comes to read waits for those who wait to write, so that they have their turn. */
static bool try_to_read(pthread_rwlock_t *lock)
{
    unsigned readers = __atomic_load_n(&lock->readers, __ATOMIC_RELAXED);
    while (!(readers & WRITING) && __atomic_load_n(&lock->writers, __ATOMIC_RELAXED) == 0)
        if (__atomic_compare_exchange_n(&lock->readers, &readers, readers + 1, 0, __ATOMIC_ACQUIRE,
                                        __ATOMIC_RELAXED))
            return true;
    return false;
}

static bool try_to_write(pthread_rwlock_t *lock)
{
    unsigned none = 0;
    return __atomic_load_n(&lock->readers, __ATOMIC_RELAXED) == 0 &&
           __atomic_compare_exchange_n(&lock->readers, &none, WRITING, 0, __ATOMIC_ACQUIRE,
                                       __ATOMIC_RELAXED);
}

int pthread_rwlock_rdlock(pthread_rwlock_t *lock)
{
    while (!try_to_read(lock))
        shasta_rest();
    return 0;
}

int pthread_rwlock_tryrdlock(pthread_rwlock_t *lock)
{
    if (try_to_read(lock))
        return 0;
    shasta_rest();
    return EBUSY;
}

int pthread_rwlock_timedrdlock(pthread_rwlock_t *lock, const struct timespec *until)
{
    while (!try_to_read(lock))
        if (__shasta_is_past(until))
            return ETIMEDOUT;
    return 0;
}

int pthread_rwlock_wrlock(pthread_rwlock_t *lock)
{
    if (try_to_write(lock))
        return 0;
    __atomic_fetch_add(&lock->writers, 1, __ATOMIC_RELAXED);
    while (!try_to_write(lock))
        shasta_rest();
    __atomic_fetch_sub(&lock->writers, 1, __ATOMIC_RELAXED);
    return 0;
}

int pthread_rwlock_trywrlock(pthread_rwlock_t *lock)
{
    if (try_to_write(lock))
        return 0;
    shasta_rest();
    return EBUSY;
}

int pthread_rwlock_timedwrlock(pthread_rwlock_t *lock, const struct timespec *until)
{
    while (!try_to_write(lock))
        if (__shasta_is_past(until))
            return ETIMEDOUT;
    return 0;
}

int pthread_rwlock_unlock(pthread_rwlock_t *lock)
{
    if (__atomic_load_n(&lock->readers, __ATOMIC_RELAXED) & WRITING)
        __atomic_store_n(&lock->readers, 0, __ATOMIC_RELEASE);
    else
        __atomic_fetch_sub(&lock->readers, 1, __ATOMIC_RELEASE);
    return 0;
}

int pthread_rwlockattr_init(pthread_rwlockattr_t *attributes)
{
    (void)attributes;
    return 0;
}

int pthread_rwlockattr_destroy(pthread_rwlockattr_t *attributes)
{
    (void)attributes;
    return 0;
}
