/* The condition of <pthread.h>. */
#include "tickets.h"

#include <errno.h>
#include <pthread.h>

int pthread_cond_init(pthread_cond_t *condition, const pthread_condattr_t *attributes)
{
    (void)attributes;
    *condition = (pthread_cond_t)PTHREAD_COND_INITIALIZER;
    return 0;
}

int pthread_cond_destroy(pthread_cond_t *condition)
{
    (void)condition;
    return 0;
}

int pthread_cond_wait(pthread_cond_t *condition, pthread_mutex_t *mutex)
{
    unsigned ticket = __shasta_take_ticket(&condition->tickets);
    int error = pthread_mutex_unlock(mutex);
    if (error != 0)
        return error;
    __shasta_wait_for_ticket(&condition->tickets, ticket);
    return pthread_mutex_lock(mutex);
}

int pthread_cond_timedwait(pthread_cond_t *condition, pthread_mutex_t *mutex,
                           const struct timespec *until)
{
    if (until->tv_nsec < 0 || until->tv_nsec >= 1000000000)
        return EINVAL;
    unsigned before = __shasta_look_at_signals(&condition->tickets);
    pthread_mutex_unlock(mutex);
    bool signalled = __shasta_wait_for_signal(&condition->tickets, before, until);
    int error = pthread_mutex_lock(mutex);
    return error != 0 ? error : signalled ? 0 : ETIMEDOUT;
}

int pthread_cond_signal(pthread_cond_t *condition)
{
    __shasta_serve(&condition->tickets, 1);
    return 0;
}

int pthread_cond_broadcast(pthread_cond_t *condition)
{
    __shasta_serve(&condition->tickets, ~0u);
    return 0;
}

int pthread_condattr_init(pthread_condattr_t *attributes)
{
    *attributes = (pthread_condattr_t){CLOCK_REALTIME};
    return 0;
}

int pthread_condattr_destroy(pthread_condattr_t *attributes)
{
    (void)attributes;
    return 0;
}

int pthread_condattr_setclock(pthread_condattr_t *attributes, clockid_t clock)
{
    attributes->clock = clock;
    return 0;
}

int pthread_condattr_getclock(const pthread_condattr_t *attributes, clockid_t *clock)
{
    *clock = attributes->clock;
    return 0;
}
