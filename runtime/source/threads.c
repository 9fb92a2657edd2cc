/* Threads of <threads.h>. */
#include "threads.h"

#include "clock.h"
#include "thread.h"

#include <stdint.h>

static int as_in_c(int error)
{
    return error == 0 ? thrd_success : thrd_error;
}

/* An int comes back in the register of a pointer. */
int thrd_create(thrd_t *thread, thrd_start_t function, void *argument)
{
    thread_function called = (thread_function)(void (*)(void))function;
    struct thread *made = __shasta_make_thread(called, argument, DEFAULT_STACK, 0, ANY_PROCESSOR);
    *thread = (thrd_t)made;
    if (made == 0)
        return thrd_nomem;
    __shasta_wake(made);
    return thrd_success;
}

int thrd_join(thrd_t thread, int *result)
{
    void *given = 0;
    int error = __shasta_join_thread((struct thread *)thread, &given);
    if (error == 0 && result != 0)
        *result = (int)(intptr_t)given;
    return as_in_c(error);
}

int thrd_detach(thrd_t thread)
{
    return as_in_c(__shasta_detach_thread((struct thread *)thread));
}

_Noreturn void thrd_exit(int result)
{
    __shasta_end_thread((void *)(intptr_t)result);
}

thrd_t thrd_current(void)
{
    return (thrd_t)__shasta_self();
}

int thrd_equal(thrd_t one, thrd_t other)
{
    return one == other;
}

void thrd_yield(void)
{
    shasta_rest();
}

int thrd_sleep(const struct timespec *time, struct timespec *left)
{
    if (left != 0)
        *left = (struct timespec){0};
    __shasta_pass(time);
    return 0;
}
