/* The ring of a processor: the threads that take turns there. */
#include "thread.h"

void __shasta_switch(void **from, void *to);

/* What runs where no thread was made: main on processor 0, and on each other processor what waits for
   work. */
static struct thread first_threads[MOST_PROCESSORS];

struct thread *__shasta_self(void)
{
    if (own.running == 0) {
        struct thread *first = &first_threads[own.number];
        first->next = first;
        first->processor = own.number;
        first->in_ring = true;
        first->is_live = IS_LIVE;
        own.running = first;
    }
    return own.running;
}

/* Those who wait look at `called` at each turn: the ring has its bit where there is more than one. */
static void say_whether_several(void)
{
    if (own.running->next != own.running)
        __atomic_fetch_or(&own.home->called, CALLED_RING, __ATOMIC_RELAXED);
    else
        __atomic_fetch_and(&own.home->called, ~CALLED_RING, __ATOMIC_RELAXED);
}

/* Puts a thread at the end of the ring: before the one that runs. */
static void insert(struct thread *thread)
{
    struct thread *last = own.running;
    while (last->next != own.running)
        last = last->next;
    thread->next = last->next;
    last->next = thread;
    thread->in_ring = true;
    say_whether_several();
}

/* Takes those into the ring whom others have woken, in the order in which they came. */
static void take_newcomers(void)
{
    __atomic_fetch_and(&own.home->called, ~CALLED_NEWCOMERS, __ATOMIC_ACQUIRE);
    struct thread *thread = __atomic_exchange_n(&own.home->newcomers, 0, __ATOMIC_ACQUIRE);
    struct thread *first = 0;
    while (thread != 0) {
        struct thread *next = thread->next;
        thread->next = first;
        first = thread;
        thread = next;
    }
    while (first != 0) {
        struct thread *next = first->next;
        insert(first);
        first = next;
    }
}

void __shasta_wake(struct thread *thread)
{
    __shasta_self();
    if (thread->processor == own.number) {
        insert(thread);
        return;
    }
    struct home *home = home_of(thread->processor);
    struct thread *before = __atomic_load_n(&home->newcomers, __ATOMIC_RELAXED);
    do
        thread->next = before;
    while (!__atomic_compare_exchange_n(&home->newcomers, &before, thread, 0, __ATOMIC_RELEASE,
                                        __ATOMIC_RELAXED));
    __atomic_fetch_or(&home->called, CALLED_NEWCOMERS, __ATOMIC_RELEASE);
}

/* Lets another one of the ring run; comes back when this one's turn comes again. */
static void go_to(struct thread *thread)
{
    struct thread *self = own.running;
    __shasta_check_stack(self);
    self->in_parallel = own.in_parallel;
    own.running = thread;
    own.places = thread->lowest == 0 ? &own.home->places : &thread->places;
    own.in_parallel = thread->in_parallel;
    __shasta_switch(&self->stack, thread->stack);
    __shasta_bury();
}

void __shasta_yield(unsigned called)
{
    struct thread *self = __shasta_self();
    if (called & CALLED_NEWCOMERS)
        take_newcomers();
    if (self->next != self)
        go_to(self->next);
}

void __shasta_sleep(void)
{
    struct thread *self = __shasta_self();
    struct thread *last = self;
    while (last->next != self)
        last = last->next;
    last->next = self->next;
    self->in_ring = false;
    own.running = last;
    say_whether_several();
    own.running = self;
    go_to(last->next);
}
