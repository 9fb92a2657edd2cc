/* The thread by which a processor does its part of work that is handed down, where a program has
   threads. It is the same one each time, so its thread-local data stays. */
#include "thread.h"

static struct worker {
    struct thread *thread SHASTA_IN_OWN_LINE;
    const struct work *work;
    bool at_work;
} workers[MOST_PROCESSORS];

static _Noreturn void *go_on(void *given)
{
    struct worker *worker = given;
    for (;;) {
        worker->work->function(worker->work);
        __shasta_flush();
        worker->at_work = false;
        __shasta_sleep();
    }
}

void __shasta_do_by_thread(const struct work *work)
{
    struct worker *worker = &workers[own.number];
    worker->work = work;
    worker->at_work = true;
    if (worker->thread == 0)
        worker->thread = __shasta_make_thread(go_on, worker, DEFAULT_STACK, DETACHED, own.number);
    if (worker->thread == 0)
        __shasta_fail("shasta: no memory for a stack: -Wl,--defsym=__heap_size=BYTES gives more\n");
    __shasta_wake(worker->thread);
    while (worker->at_work)
        shasta_rest();
}

void __shasta_leave_work(struct thread *thread)
{
    struct worker *worker = &workers[own.number];
    if (worker->thread != thread)
        return;
    worker->thread = 0;
    worker->at_work = false;
}
