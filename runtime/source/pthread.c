/* Threads of <pthread.h>. */
#include "thread.h"

#include <errno.h>
#include <pthread.h>

int pthread_create(pthread_t *thread, const pthread_attr_t *attributes,
                   void *(*function)(void *), void *argument)
{
    size_t bytes = DEFAULT_STACK;
    unsigned flags = 0;
    if (attributes != 0) {
        bytes = attributes->stack_bytes != 0 ? attributes->stack_bytes : bytes;
        flags = attributes->is_detached ? DETACHED : 0;
    }
    struct thread *made =
        __shasta_make_thread(function, argument, bytes, flags, ANY_PROCESSOR);
    if (made == 0)
        return EAGAIN;
    *thread = (pthread_t)made;
    __shasta_wake(made);
    return 0;
}

int pthread_join(pthread_t thread, void **result)
{
    return __shasta_join_thread((struct thread *)thread, result);
}

int pthread_detach(pthread_t thread)
{
    return __shasta_detach_thread((struct thread *)thread);
}

void pthread_exit(void *result)
{
    __shasta_end_thread(result);
}

pthread_t pthread_self(void)
{
    return (pthread_t)__shasta_self();
}

int pthread_equal(pthread_t one, pthread_t other)
{
    return one == other;
}

int pthread_yield(void)
{
    shasta_rest();
    return 0;
}
