/* Processors other than 0 wait until one calls them, each at a seat in the page of its parent. The
   parents make a binomial tree: a processor's parent is its number without the lowest bit, so 0 has
   8, 4, 2 and 1 as its children, 8 has 12, 10 and 9. Work goes down the tree, and what is done is
   said up the tree; so does the word that the program ends, from whoever ends it. */
#include "home.h"

/* Of a processor, or of its distance from the root: its children are as many as the bits below its
   lowest one. */
static unsigned children_of(unsigned number)
{
    return number == 0 ? DOUBLINGS : (unsigned)__builtin_ctz(number);
}

static void call_children(const struct work *work)
{
    for (unsigned k = children_of(own.number); k-- > 0;) {
        struct seat *seat = &own.home->seats[k];
        if (own.number + (1u << k) >= work->processors)
            continue;
        seat->work = *work;
        __atomic_store_n(&seat->calls, seat->calls + 1, __ATOMIC_RELEASE);
    }
}

static void wait_for_children(const struct work *work)
{
    for (unsigned k = 0; k < children_of(own.number); k += 1) {
        struct seat *seat = &own.home->seats[k];
        unsigned child = own.number + (1u << k);
        if (child >= work->processors)
            return;
        while (__atomic_load_n(&home_of(child)->done, __ATOMIC_ACQUIRE) != seat->calls)
            shasta_rest();
    }
}

/* Where there are threads one of them does it, whose stack lies in shared memory as that of processor 0
   does. */
void __shasta_hand_down(const struct work *work)
{
    call_children(work);
    if (__shasta_do_by_thread && own.number != 0)
        __shasta_do_by_thread(work);
    else
        work->function(work);
    __shasta_flush();
    wait_for_children(work);
}

enum { FUNCTION, ARGUMENT };

static void do_part(const struct work *work)
{
    void (*function)(void *) = (void (*)(void *))work->words[FUNCTION];
    own.in_parallel = true;
    function((void *)work->words[ARGUMENT]);
    own.in_parallel = false;
}

void shasta_parallel(void (*function)(void *), void *argument)
{
    if (own.number != 0 || own.in_parallel)
        __shasta_fail("shasta: shasta_parallel within shasta_parallel, or not by processor 0\n");
    struct work work = {do_part, own.count, {(uintptr_t)function, (uintptr_t)argument}};
    __shasta_hand_down(&work);
}

_Noreturn void __shasta_wait(void)
{
    NOBODY_CALLED_THIS;
    unsigned parent = own.number & (own.number - 1);
    struct seat *seat = &home_of(parent)->seats[__builtin_ctz(own.number)];
    for (unsigned calls = 1;; calls += 1) {
        while (__atomic_load_n(&seat->calls, __ATOMIC_ACQUIRE) != calls)
            shasta_rest();
        __shasta_hand_down(&seat->work);
        __atomic_store_n(&own.home->done, calls, __ATOMIC_RELEASE);
    }
}

/* The tree by which the end is told has the one who tells it as its root. */
static void tell_children(unsigned root, int code)
{
    unsigned distance = (own.number + own.count - root) % own.count;
    for (unsigned k = children_of(distance); k-- > 0;) {
        if (distance + (1u << k) >= own.count)
            continue;
        struct home *child = home_of(own.number + (1u << k));
        child->end.root = root;
        child->end.code = code;
        __atomic_fetch_or(&child->called, CALLED_END, __ATOMIC_RELEASE);
    }
}

void __shasta_turn(void)
{
    unsigned called = __atomic_load_n(&own.home->called, __ATOMIC_ACQUIRE);
    if (called & CALLED_END) {
        tell_children(own.home->end.root, own.home->end.code);
        __shasta_end(own.home->end.code);
    }
    if (__shasta_yield)
        __shasta_yield(called);
}

/* One processor alone tells the others that the program ends: the first one. */
void __shasta_tell_end(int code)
{
    if (__atomic_exchange_n(&home_of(0)->end.told, 1, __ATOMIC_ACQ_REL))
        for (;;)
            shasta_rest();
    tell_children(own.number, code);
}
