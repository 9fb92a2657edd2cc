/* How the iterations of a loop are shared out. */
#include "omp_loop.h"

#include <malloc.h>
#include <string.h>

enum { AUTO_AND_BELOW = 7 };

void __shasta_begin_loop(struct share *share, const void *what)
{
    const struct loop *loop = what;
    const struct settings *settings = __shasta_task()->settings;
    unsigned kind = loop->kind & AUTO_AND_BELOW;
    wide chunk = loop->chunk;
    if (kind == 0) {
        kind = settings->schedule & AUTO_AND_BELOW;
        chunk = settings->chunk;
    }
    share->kind = (kind == AUTO ? STATIC : kind) | (loop->kind & ORDERED);
    share->chunk = kind == AUTO ? 0 : kind != STATIC && chunk == 0 ? 1 : chunk;
    share->count = loop->count;
    share->start = loop->start;
    share->end = loop->end;
    share->step = loop->step;
    share->next = 0;
    share->chunks = 0;
    share->turn = 0;
    free(share->memory);
    share->memory = loop->memory != 0 ? memalign(SHASTA_LINE, loop->memory) : 0;
    if (share->memory != 0)
        memset(share->memory, 0, loop->memory);
    if (share->doacross != 0)
        __shasta_free_doacross(share->doacross);
    share->doacross =
        loop->dimensions != 0 ? __shasta_new_doacross(loop->dimensions, loop->sizes) : 0;
    share->reductions = 0;
}

/* The part of a static schedule without chunks, or the chunk of the next trip. */
static bool take_static(struct task *task, struct part *part)
{
    struct share *share = task->share;
    unsigned size = task->team != 0 ? task->team->size : 1;
    wide trip = task->trip;
    if (share->chunk == 0) {
        wide each = share->count / size, more = share->count % size;
        bool has_more = task->number < more;
        part->first = each * task->number + (has_more ? task->number : more);
        part->count = each + has_more;
        task->chunk = task->number;
        if (trip != 0)
            return false;
    } else {
        wide chunk = task->number + trip * size;
        part->first = chunk * share->chunk;
        task->chunk = (unsigned)chunk;
        if (chunk > share->count / share->chunk || part->first >= share->count)
            return false;
        wide left = share->count - part->first;
        part->count = left < share->chunk ? left : share->chunk;
    }
    task->trip += 1;
    return part->count != 0;
}

/* How many iterations the next one takes of those that are left. */
static wide portion(const struct share *share, unsigned size, wide left)
{
    wide wanted = share->chunk;
    if ((share->kind & AUTO_AND_BELOW) == GUIDED && wanted < (left + size - 1) / size)
        wanted = (left + size - 1) / size;
    return wanted < left ? wanted : left;
}

/* The same by one word, where the count is one. */
static bool take_word(struct share *share, unsigned size, struct part *part)
{
    unsigned *next = (unsigned *)&share->next;
    unsigned count = (unsigned)share->count;
    unsigned first = __atomic_load_n(next, __ATOMIC_RELAXED);
    do {
        if (first >= count)
            return false;
        part->count = portion(share, size, count - first);
    } while (!__atomic_compare_exchange_n(next, &first, first + (unsigned)part->count, 0,
                                          __ATOMIC_ACQ_REL, __ATOMIC_RELAXED));
    part->first = first;
    return true;
}

static bool take_locked(struct task *task, struct share *share, unsigned size, struct part *part)
{
    shasta_enter(&share->lock);
    bool is_left = share->next < share->count;
    if (is_left) {
        part->first = share->next;
        part->count = portion(share, size, share->count - share->next);
        share->next += part->count;
        task->chunk = share->chunks;
        share->chunks += 1;
    }
    shasta_leave(&share->lock);
    return is_left;
}

bool __shasta_take_part(struct task *task, struct part *part)
{
    struct share *share = task->share;
    unsigned size = task->team != 0 ? task->team->size : 1;
    if (share->kind & ORDERED)
        __shasta_pass_turn(task);
    bool is_left;
    if ((share->kind & AUTO_AND_BELOW) == STATIC)
        is_left = take_static(task, part);
    else if (share->kind & ORDERED || share->count > UINT_MAX)
        is_left = take_locked(task, share, size, part);
    else
        is_left = take_word(share, size, part);
    task->has_chunk = is_left;
    return is_left;
}

void __shasta_start_loop(const struct loop *loop, void **memory)
{
    struct task *task = __shasta_task();
    struct share *share = __shasta_come_to_share(task, __shasta_begin_loop, loop);
    if (loop->reductions != 0)
        __shasta_share_reductions(task, share, loop->reductions);
    if (memory != 0)
        *memory = share->memory;
}
