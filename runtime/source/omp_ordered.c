/* What is ordered in a loop: chunks one after the other, or places of the loops in it. */
#include "omp_loop.h"

#include <malloc.h>
#include <stdarg.h>
#include <string.h>

static void wait_for_turn(const struct task *task)
{
    while (__atomic_load_n(&task->share->turn, __ATOMIC_ACQUIRE) != task->chunk)
        shasta_rest();
}

void __shasta_pass_turn(struct task *task)
{
    if (!task->has_chunk)
        return;
    wait_for_turn(task);
    task->has_chunk = false;
    __atomic_store_n(&task->share->turn, task->chunk + 1, __ATOMIC_RELEASE);
}

void GOMP_ordered_start(void)
{
    struct task *task = __shasta_task();
    if (task->share != 0 && task->share->kind & ORDERED && task->has_chunk)
        wait_for_turn(task);
}

void GOMP_ordered_end(void)
{
}

/* For each iteration of the outermost loop, how far the loops in it have come: the number of the last
   place that was posted, counted from 1. GCC makes one place of several to wait for, so one waits for
   a place or a later one. */
struct doacross {
    unsigned dimensions;
    const wide *sizes;
    wide *reached;
};

struct doacross *__shasta_new_doacross(unsigned dimensions, const wide *sizes)
{
    struct doacross *made = malloc(sizeof *made);
    size_t bytes = (size_t)sizes[0] * sizeof *made->reached;
    size_t head = dimensions * sizeof *sizes;
    char *words = malloc(head + bytes);
    if (made == 0 || words == 0)
        __shasta_fail("shasta: no memory for OpenMP: -Wl,--defsym=__heap_size=BYTES gives more\n");
    *made = (struct doacross){dimensions, (wide *)words, (wide *)(words + head)};
    memcpy(words, sizes, head);
    memset(words + head, 0, bytes);
    return made;
}

void __shasta_free_doacross(struct doacross *doacross)
{
    free((void *)doacross->sizes);
    free(doacross);
}

/* The place as a number, from 1 on. */
static wide number_of(const struct doacross *doacross, const wide *at)
{
    wide number = 0;
    for (unsigned k = 1; k < doacross->dimensions; k += 1)
        number = number * doacross->sizes[k] + at[k];
    return number + 1;
}

static struct doacross *here(void)
{
    struct share *share = __shasta_task()->share;
    return share != 0 ? share->doacross : 0;
}

static void post(struct doacross *doacross, const wide *at)
{
    __atomic_store_n(&doacross->reached[at[0]], number_of(doacross, at), __ATOMIC_RELEASE);
}

static void wait_for(struct doacross *doacross, const wide *at)
{
    wide number = number_of(doacross, at);
    while (__atomic_load_n(&doacross->reached[at[0]], __ATOMIC_ACQUIRE) < number)
        shasta_rest();
}

enum { MOST_DIMENSIONS = 128 };

void GOMP_doacross_post(long *at)
{
    struct doacross *doacross = here();
    wide place[MOST_DIMENSIONS];
    if (doacross == 0)
        return;
    for (unsigned k = 0; k < doacross->dimensions; k += 1)
        place[k] = (unsigned long)at[k];
    post(doacross, place);
}

void GOMP_doacross_ull_post(wide *at)
{
    if (here() != 0)
        post(here(), at);
}

void GOMP_doacross_wait(long first, ...)
{
    struct doacross *doacross = here();
    wide place[MOST_DIMENSIONS];
    va_list others;
    if (doacross == 0)
        return;
    va_start(others, first);
    place[0] = (unsigned long)first;
    for (unsigned k = 1; k < doacross->dimensions; k += 1)
        place[k] = va_arg(others, unsigned long);
    va_end(others);
    wait_for(doacross, place);
}

void GOMP_doacross_ull_wait(wide first, ...)
{
    struct doacross *doacross = here();
    wide place[MOST_DIMENSIONS];
    va_list others;
    if (doacross == 0)
        return;
    va_start(others, first);
    place[0] = first;
    for (unsigned k = 1; k < doacross->dimensions; k += 1)
        place[k] = va_arg(others, wide);
    va_end(others);
    wait_for(doacross, place);
}
