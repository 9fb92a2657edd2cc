/* The barrier of <pthread.h>. */
#include "shasta.h"

#include <errno.h>
#include <pthread.h>

/* The round goes on from where it was, since one may still look at it that met here before. */
int pthread_barrier_init(pthread_barrier_t *barrier, const pthread_barrierattr_t *attributes,
                         unsigned count)
{
    (void)attributes;
    if (count == 0)
        return EINVAL;
    barrier->count = count;
    __atomic_store_n(&barrier->arrived, 0, __ATOMIC_RELEASE);
    return 0;
}

int pthread_barrier_destroy(pthread_barrier_t *barrier)
{
    return __atomic_load_n(&barrier->arrived, __ATOMIC_ACQUIRE) != 0 ? EBUSY : 0;
}

int pthread_barrier_wait(pthread_barrier_t *barrier)
{
    unsigned round = __atomic_load_n(&barrier->round, __ATOMIC_ACQUIRE);
    if (__atomic_add_fetch(&barrier->arrived, 1, __ATOMIC_ACQ_REL) == barrier->count) {
        __atomic_store_n(&barrier->arrived, 0, __ATOMIC_RELAXED);
        __atomic_store_n(&barrier->round, round + 1, __ATOMIC_RELEASE);
        return PTHREAD_BARRIER_SERIAL_THREAD;
    }
    while (__atomic_load_n(&barrier->round, __ATOMIC_ACQUIRE) == round)
        shasta_rest();
    return 0;
}

int pthread_barrierattr_init(pthread_barrierattr_t *attributes)
{
    (void)attributes;
    return 0;
}

int pthread_barrierattr_destroy(pthread_barrierattr_t *attributes)
{
    (void)attributes;
    return 0;
}
