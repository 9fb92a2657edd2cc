/* Dependences between the tasks of one parent. For each address a parent has a list of those that came
   last to write it, and of those that came since to read it; a task that reads waits for the former, one
   that writes for all. */
#include "omp.h"

#include <malloc.h>

/* A task that came to an address. */
struct comer {
    struct comer *next;
    struct task *task;
    bool reads;
};

/* An address, and who came to it. */
struct place {
    struct place *next;
    const void *address;
    struct comer *comers;
};

enum { CHAINS = 32 };

struct dependences {
    struct shasta_lock lock;
    struct place *places[CHAINS];
};

/* A task that waits for another one. */
struct followers {
    struct followers *next;
    struct task *task;
};

static void *room(size_t bytes)
{
    void *block = malloc(bytes);
    if (block == 0)
        __shasta_fail("shasta: no memory for OpenMP: -Wl,--defsym=__heap_size=BYTES gives more\n");
    return block;
}

static struct dependences *dependences_of(struct task *parent)
{
    if (parent->dependences == 0) {
        struct dependences *made = memalign(SHASTA_LINE, sizeof *made);
        if (made == 0)
            made = room(sizeof *made);
        *made = (struct dependences){.places = {0}};
        __atomic_store_n(&parent->dependences, made, __ATOMIC_RELEASE);
    }
    return parent->dependences;
}

static struct place *place_of(struct dependences *dependences, const void *address)
{
    struct place **chain = &dependences->places[((uintptr_t)address >> 2) % CHAINS];
    for (struct place *place = *chain; place != 0; place = place->next)
        if (place->address == address)
            return place;
    struct place *made = room(sizeof *made);
    *made = (struct place){*chain, address, 0};
    return *chain = made;
}

/* Lets a task wait for one that came before it, where that one isn't finished. */
static void follow(struct task *before, struct task *task)
{
    if (before == task || before->is_finished)
        return;
    struct followers *follower = room(sizeof *follower);
    *follower = (struct followers){before->followers, task};
    before->followers = follower;
    task->waits_for += 1;
}

static void forget(struct comer *comers)
{
    while (comers != 0) {
        struct comer *next = comers->next;
        __shasta_release(comers->task);
        free(comers);
        comers = next;
    }
}

/* Who came last to write stands behind those who came to read since. */
static void come(struct dependences *dependences, struct task *task, const void *address,
                 bool reads)
{
    struct place *place = place_of(dependences, address);
    bool was_here = false;
    for (struct comer *comer = place->comers; comer != 0; comer = comer->next) {
        was_here |= comer->task == task && (reads || !comer->reads);
        if (!reads || !comer->reads)
            follow(comer->task, task);
    }
    if (was_here)
        return;
    struct comer *comer = room(sizeof *comer);
    *comer = (struct comer){reads ? place->comers : 0, task, reads};
    task->uses += 1;
    if (!reads)
        forget(place->comers);
    place->comers = comer;
}

enum { IS_IN = 1 };

/* GCC's array: the number of addresses, and of those that are written, then the addresses, these first;
   or 0, the number of all, of those written, of those written in any order, of those read, then the
   addresses, and at the end pairs of an address and a kind. */
static void come_to_all(struct dependences *dependences, struct task *task, void **depend)
{
    size_t all = (size_t)depend[0], written = (size_t)depend[1], plain = all;
    void **addresses = depend + 2;
    if (all == 0) {
        all = (size_t)depend[1];
        written = (size_t)depend[2] + (size_t)depend[3];
        plain = written + (size_t)depend[4];
        addresses = depend + 5;
    }
    for (size_t k = 0; k < plain; k += 1)
        come(dependences, task, addresses[k], k >= written);
    for (size_t k = plain; k < all; k += 1) {
        void **pair = addresses[k];
        come(dependences, task, pair[0], (uintptr_t)pair[1] == IS_IN);
    }
}

void __shasta_add_dependences(struct task *task, void **depend)
{
    struct dependences *dependences = dependences_of(task->parent);
    shasta_enter(&dependences->lock);
    come_to_all(dependences, task, depend);
    bool is_ready = task->waits_for == 0;
    shasta_leave(&dependences->lock);
    if (is_ready)
        __shasta_queue(task);
}

void __shasta_finish_dependences(struct task *task)
{
    struct dependences *dependences = task->parent->dependences;
    struct followers *ready = 0;
    if (dependences == 0)
        return;
    shasta_enter(&dependences->lock);
    task->is_finished = true;
    while (task->followers != 0) {
        struct followers *follower = task->followers;
        task->followers = follower->next;
        follower->task->waits_for -= 1;
        if (follower->task->waits_for != 0 || follower->task->function == 0) {
            free(follower);
            continue;
        }
        follower->next = ready;
        ready = follower;
    }
    shasta_leave(&dependences->lock);
    while (ready != 0) {
        struct followers *next = ready->next;
        __shasta_queue(ready->task);
        free(ready);
        ready = next;
    }
}

/* A task without a function stands for the parent while it waits. */
void __shasta_wait_for_dependences(struct task *parent, void **depend)
{
    struct dependences *dependences = parent->dependences;
    if (dependences == 0)
        return;
    struct task *task = memalign(SHASTA_LINE, sizeof *task);
    if (task == 0)
        task = room(sizeof *task);
    *task = (struct task){.parent = parent, .uses = 1};
    shasta_enter(&dependences->lock);
    come_to_all(dependences, task, depend);
    task->is_finished = task->waits_for == 0;
    shasta_leave(&dependences->lock);
    while (__atomic_load_n(&task->waits_for, __ATOMIC_ACQUIRE) != 0)
        __shasta_do_task_or_rest(parent, CHILDREN, 0);
    shasta_enter(&dependences->lock);
    task->is_finished = true;
    shasta_leave(&dependences->lock);
    __shasta_release(task);
}

void __shasta_drop_dependences(struct task *task)
{
    struct dependences *dependences = task->dependences;
    if (dependences == 0)
        return;
    __shasta_wait_for_children(task);
    for (unsigned k = 0; k < CHAINS; k += 1)
        while (dependences->places[k] != 0) {
            struct place *place = dependences->places[k];
            dependences->places[k] = place->next;
            forget(place->comers);
            free(place);
        }
    free(dependences);
    task->dependences = 0;
}
