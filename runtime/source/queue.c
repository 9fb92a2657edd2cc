/* Locks by queue (Mellor-Crummey and Scott): who comes puts its place behind the last one, and waits
   there, at a line of its own, until the one before it says that it may go on. Its place is taken
   until it leaves. A thread waits at two places at most: while it rests it may give back the memory
   of another one, under a lock of the runtime's own. So two of its places are always kept free: who
   would hold a lock by one of the last two gives it up, and notes in the lock who is next. So anybody
   may hold any number of locks. */
#include "own.h"

/* Stands for the place of one who holds a lock and has no place. Who comes behind it says so in the
   lock itself, where `next` is 0 but for that. */
static struct shasta_place no_place;

/* The first place that is free. */
static unsigned free_place(const struct places *places)
{
    unsigned k = 0;
    while (places->held[k] != 0)
        k += 1;
    return k;
}

/* Gives up the place by which this one holds the lock. */
static void hold_without_place(struct shasta_queue *queue, struct shasta_place *place)
{
    struct shasta_place *last = place;
    if (__atomic_compare_exchange_n(&queue->last, &last, &no_place, 0, __ATOMIC_ACQ_REL,
                                    __ATOMIC_RELAXED))
        return;
    struct shasta_place *next;
    while ((next = __atomic_load_n(&place->next, __ATOMIC_ACQUIRE)) == 0)
        polls();
    __atomic_store_n(&queue->next, next, __ATOMIC_RELAXED);
}

static void enter(struct shasta_queue *queue, void (*rest)(void))
{
    struct places *places = own.places;
    unsigned k = free_place(places);
    struct shasta_place *place = &places->place[k];
    places->held[k] = queue;
    place->next = 0;
    place->granted = 0;
    struct shasta_place *before = __atomic_exchange_n(&queue->last, place, __ATOMIC_ACQ_REL);
    if (before != 0) {
        struct shasta_place **next = before == &no_place ? &queue->next : &before->next;
        __atomic_store_n(next, place, __ATOMIC_RELEASE);
        while (!__atomic_load_n(&place->granted, __ATOMIC_ACQUIRE)) {
            (void)__atomic_load_n(&place->next, __ATOMIC_RELAXED); /* so it is here in hand_on */
            rest();
        }
    }
    if (k < MOST_HELD)
        return;
    hold_without_place(queue, place);
    places->held[k] = 0;
}

void __shasta_queue_enter(struct shasta_queue *queue)
{
    enter(queue, shasta_rest);
}

static void only_polls(void)
{
    polls();
}

void __shasta_enter(struct shasta_lock *lock)
{
    enter(&lock->queue, only_polls);
}

int __shasta_queue_try(struct shasta_queue *queue)
{
    struct shasta_place *none = 0;
    return __atomic_compare_exchange_n(&queue->last, &none, &no_place, 0, __ATOMIC_ACQUIRE,
                                       __ATOMIC_RELAXED);
}

/* Lets the next one in, who says in `from` that it is there, or will; or nobody, where `place` is the
   last one still. */
static void hand_on(struct shasta_queue *queue, struct shasta_place *place,
                    struct shasta_place **from)
{
    struct shasta_place *next = __atomic_load_n(from, __ATOMIC_ACQUIRE);
    if (next == 0) {
        struct shasta_place *last = place;
        if (__atomic_compare_exchange_n(&queue->last, &last, 0, 0, __ATOMIC_RELEASE,
                                        __ATOMIC_RELAXED))
            return;
        while ((next = __atomic_load_n(from, __ATOMIC_ACQUIRE)) == 0)
            polls();
    }
    if (from == &queue->next)
        queue->next = 0;
    __atomic_store_n(&next->granted, 1, __ATOMIC_RELEASE);
}

void __shasta_queue_leave(struct shasta_queue *queue)
{
    struct places *places = own.places;
    for (unsigned k = 0; k < MOST_HELD; k += 1)
        if (places->held[k] == queue) {
            hand_on(queue, &places->place[k], &places->place[k].next);
            places->held[k] = 0;
            return;
        }
    hand_on(queue, &no_place, &queue->next);
}

void __shasta_give_up_places(struct places *places)
{
    for (unsigned k = 0; k < MOST_HELD; k += 1)
        if (places->held[k] != 0) {
            hold_without_place(places->held[k], &places->place[k]);
            places->held[k] = 0;
        }
}
