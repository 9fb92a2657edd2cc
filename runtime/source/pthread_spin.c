/* The spin lock of <pthread.h>. */
#include "shasta.h"

#include <errno.h>
#include <pthread.h>

int pthread_spin_init(pthread_spinlock_t *lock, int is_shared)
{
    (void)is_shared;
    lock->is_taken = 0;
    return 0;
}

int pthread_spin_destroy(pthread_spinlock_t *lock)
{
    (void)lock;
    return 0;
}

int pthread_spin_trylock(pthread_spinlock_t *lock)
{
    if (__atomic_exchange_n(&lock->is_taken, 1, __ATOMIC_ACQUIRE) == 0)
        return 0;
    shasta_rest();
    return EBUSY;
}

int pthread_spin_lock(pthread_spinlock_t *lock)
{
    while (__atomic_exchange_n(&lock->is_taken, 1, __ATOMIC_ACQUIRE) != 0)
        while (__atomic_load_n(&lock->is_taken, __ATOMIC_RELAXED) != 0)
            shasta_rest();
    return 0;
}

int pthread_spin_unlock(pthread_spinlock_t *lock)
{
    __atomic_store_n(&lock->is_taken, 0, __ATOMIC_RELEASE);
    return 0;
}
