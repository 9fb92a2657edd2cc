/* How threads begin and end. */
#include "thread.h"

#include <errno.h>
#include <stdint.h>

/* Links pool.c, by which the processors wait for threads, without a byte of its own. */
__asm__(".reloc 0, R_RISCV_NONE, __shasta_wait");

/* How many threads each processor has, beside the first one. */
static unsigned threads_of[MOST_PROCESSORS] SHASTA_IN_OWN_LINE;

/* The processor that has the fewest; processor 0 last, which has main already. */
static unsigned emptiest(void)
{
    unsigned best = 0;
    unsigned least = __atomic_load_n(&threads_of[0], __ATOMIC_RELAXED) + 1;
    for (unsigned p = own.count; p-- > 1;) {
        unsigned count = __atomic_load_n(&threads_of[p], __ATOMIC_RELAXED);
        if (count > least)
            continue;
        best = p;
        least = count;
    }
    return best;
}

static unsigned count_all(void)
{
    unsigned count = 0;
    for (unsigned p = 0; p < own.count; p += 1)
        count += __atomic_load_n(&threads_of[p], __ATOMIC_ACQUIRE);
    return count;
}

static _Noreturn void begin(void)
{
    NOBODY_CALLED_THIS;
    struct thread *self = own.running;
    for (unsigned k = 0; k < PLACES; k += 1)
        self->places.held[k] = 0;
    __shasta_bury();
    __shasta_mark_stack(self);
    __shasta_thread_data_anew();
    __shasta_end_thread(self->function(self->argument));
}

/* Lets a new thread go on at `begin`, by what __shasta_switch takes from its stack: the return address,
   and tp, which is where its thread-local data lies. */
static void prepare(struct thread *thread)
{
    void **frame = (void **)((char *)thread->stack - 64);
    frame[0] = (void *)begin;
    frame[1] = thread->stack;
    thread->stack = frame;
}

struct thread *__shasta_make_thread(thread_function function, void *argument, size_t stack_bytes,
                                    unsigned flags, unsigned processor)
{
    struct thread *thread = __shasta_take_stack(stack_bytes);
    if (thread == 0)
        return 0;
    thread->is_live = IS_LIVE;
    thread->flags = flags;
    thread->function = function;
    thread->argument = argument;
    thread->processor = processor == ANY_PROCESSOR ? emptiest() : processor;
    thread->in_parallel = false;
    prepare(thread);
    __atomic_fetch_add(&threads_of[thread->processor], 1, __ATOMIC_RELAXED);
    return thread;
}

void __shasta_bury(void)
{
    struct thread *thread = own.buried;
    if (thread == 0)
        return;
    own.buried = 0;
    __atomic_fetch_sub(&threads_of[own.number], 1, __ATOMIC_RELEASE);
    if (__atomic_fetch_or(&thread->flags, OVER, __ATOMIC_ACQ_REL) & DETACHED)
        __shasta_give_stack(thread);
}

/* The first thread of processor 0 is over: the program ends when no other one is left. */
static _Noreturn void end_first(struct thread *self)
{
    __atomic_fetch_or(&self->flags, OVER, __ATOMIC_RELEASE);
    while (count_all() != 0)
        shasta_rest();
    exit(0);
}

_Noreturn void __shasta_end_thread(void *result)
{
    struct thread *self = __shasta_self();
    if (__shasta_drop_kept)
        __shasta_drop_kept();
    __shasta_flush();
    self->result = result;
    if (self->lowest == 0)
        end_first(self);
    __shasta_leave_work(self);
    __shasta_give_up_places(&self->places);
    own.buried = self;
    __shasta_sleep();
    __builtin_unreachable();
}

int __shasta_join_thread(struct thread *thread, void **result)
{
    if (thread == __shasta_self())
        return EDEADLK;
    if (thread == 0 || thread->is_live != IS_LIVE)
        return ESRCH;
    if (__atomic_load_n(&thread->flags, __ATOMIC_ACQUIRE) & DETACHED)
        return EINVAL;
    while (!(__atomic_load_n(&thread->flags, __ATOMIC_ACQUIRE) & OVER))
        shasta_rest();
    if (result != 0)
        *result = thread->result;
    if (thread->lowest != 0)
        __shasta_give_stack(thread);
    return 0;
}

int __shasta_detach_thread(struct thread *thread)
{
    if (thread == 0 || thread->is_live != IS_LIVE)
        return ESRCH;
    unsigned before = __atomic_fetch_or(&thread->flags, DETACHED, __ATOMIC_ACQ_REL);
    if (before & DETACHED)
        return EINVAL;
    if (before & OVER && thread->lowest != 0)
        __shasta_give_stack(thread);
    return 0;
}
