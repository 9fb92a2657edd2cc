/* Barriers, and what one thread does at a time. */
#include "omp.h"

#include <malloc.h>

static _Thread_local struct task *who_waits;

static void help(void)
{
    __shasta_do_task_or_rest(who_waits, ALL, 0);
}

/* The last one that comes has finished all tasks before it, and they can't make others any more: so
   when all have come there is no task left. */
void __shasta_team_barrier(struct task *task)
{
    struct team *team = task->team;
    if (team == 0)
        return __shasta_wait_for_children(task);
    while (__atomic_load_n(&team->unfinished, __ATOMIC_ACQUIRE) != 0)
        __shasta_do_task_or_rest(task, ALL, 0);
    if (team->size == 1)
        return;
    if (team->has_processors) {
        who_waits = task;
        __shasta_meet_all(help);
        return;
    }
    struct shasta_barrier *barrier = &team->barrier;
    unsigned round = __atomic_load_n(&barrier->round, __ATOMIC_ACQUIRE);
    if (__atomic_add_fetch(&barrier->arrived, 1, __ATOMIC_ACQ_REL) == team->size) {
        __atomic_store_n(&barrier->arrived, 0, __ATOMIC_RELAXED);
        __atomic_store_n(&barrier->round, round + 1, __ATOMIC_RELEASE);
        return;
    }
    while (__atomic_load_n(&barrier->round, __ATOMIC_ACQUIRE) == round)
        __shasta_do_task_or_rest(task, ALL, 0);
}

void GOMP_barrier(void)
{
    __shasta_team_barrier(__shasta_task());
}

_Bool GOMP_barrier_cancel(void)
{
    GOMP_barrier();
    return false;
}

/* Nothing is cancelled. */
_Bool GOMP_cancel(int which, _Bool is_so)
{
    (void)which, (void)is_so;
    return false;
}

_Bool GOMP_cancellation_point(int which)
{
    (void)which;
    return false;
}

static struct shasta_lock critical, atomic;

void GOMP_critical_start(void)
{
    shasta_enter(&critical);
}

void GOMP_critical_end(void)
{
    shasta_leave(&critical);
}

/* Each name has one word, which is 0 at the start: it leads to the lock. */
void GOMP_critical_name_start(void **name)
{
    struct shasta_lock *lock = __atomic_load_n(name, __ATOMIC_ACQUIRE);
    if (lock == 0) {
        void *none = 0;
        lock = memalign(SHASTA_LINE, sizeof *lock);
        if (lock == 0)
            __shasta_fail("shasta: no memory for OpenMP: -Wl,--defsym=__heap_size=BYTES gives more\n");
        *lock = (struct shasta_lock){{0, 0}};
        if (!__atomic_compare_exchange_n(name, &none, lock, 0, __ATOMIC_ACQ_REL,
                                         __ATOMIC_ACQUIRE)) {
            free(lock);
            lock = none;
        }
    }
    shasta_enter(lock);
}

void GOMP_critical_name_end(void **name)
{
    shasta_leave(*name);
}

void GOMP_atomic_start(void)
{
    shasta_enter(&atomic);
}

void GOMP_atomic_end(void)
{
    shasta_leave(&atomic);
}

/* A single belongs to the thread that counts it first. */
static bool is_first(struct task *task)
{
    unsigned single = task->singles;
    task->singles = single + 1;
    if (task->team == 0)
        return true;
    return __atomic_load_n(&task->team->single, __ATOMIC_RELAXED) == single &&
           __atomic_compare_exchange_n(&task->team->single, &single, single + 1, 0,
                                       __ATOMIC_ACQ_REL, __ATOMIC_RELAXED);
}

_Bool GOMP_single_start(void)
{
    return is_first(__shasta_task());
}

/* 0 for the one that does it; the others wait for the address of its values. A barrier follows. */
void *GOMP_single_copy_start(void)
{
    struct task *task = __shasta_task();
    if (is_first(task))
        return 0;
    while (__atomic_load_n(&task->team->copied_by, __ATOMIC_ACQUIRE) != task->singles)
        shasta_rest();
    return task->team->copied;
}

void GOMP_single_copy_end(void *values)
{
    struct task *task = __shasta_task();
    if (task->team == 0)
        return;
    task->team->copied = values;
    __atomic_store_n(&task->team->copied_by, task->singles, __ATOMIC_RELEASE);
}
