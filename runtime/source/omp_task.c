/* Tasks. One that is made waits in the queue of the thread that made it, the newest last; this thread
   takes the newest, and others take the oldest, where they wait for something. */
#include "omp.h"

#include "../shasta.specs.d/omp.h"

#include <malloc.h>
#include <string.h>

enum {
    TASK_UNTIED = 1,
    TASK_FINAL = 2,
    TASK_DEPEND = 8,
    TASK_DETACH = 0x2000
};

static _Noreturn void fail(void)
{
    __shasta_fail("shasta: no memory for OpenMP: -Wl,--defsym=__heap_size=BYTES gives more\n");
}

void __shasta_queue(struct task *task)
{
    struct queue *queue = &task->team->queues[task->number];
    shasta_enter(&queue->lock);
    task->newer = 0;
    task->older = queue->newest;
    if (queue->newest != 0)
        queue->newest->newer = task;
    else
        queue->oldest = task;
    queue->newest = task;
    shasta_leave(&queue->lock);
}

static void unlink_task(struct queue *queue, struct task *task)
{
    if (task->older != 0)
        task->older->newer = task->newer;
    else
        queue->oldest = task->newer;
    if (task->newer != 0)
        task->newer->older = task->older;
    else
        queue->newest = task->older;
}

static bool is_in(const struct group *group, const struct group *outer)
{
    while (group != 0 && group != outer)
        group = group->outer;
    return group != 0;
}

static bool may_be_done(const struct task *task, const struct task *waiter, enum wait wait,
                        const struct group *group)
{
    if (wait == CHILDREN)
        return task->parent == waiter;
    return wait == ALL || is_in(task->group, group);
}

static struct task *take_from(struct queue *queue, bool is_own, const struct task *waiter,
                              enum wait wait, const struct group *group)
{
    if (__atomic_load_n(&queue->oldest, __ATOMIC_RELAXED) == 0)
        return 0;
    shasta_enter(&queue->lock);
    struct task *task = is_own ? queue->newest : queue->oldest;
    while (task != 0 && !may_be_done(task, waiter, wait, group))
        task = is_own ? task->older : task->newer;
    if (task != 0)
        unlink_task(queue, task);
    shasta_leave(&queue->lock);
    return task;
}

void __shasta_release(struct task *task)
{
    if (__atomic_sub_fetch(&task->uses, 1, __ATOMIC_ACQ_REL) == 0)
        free(task);
}

/* The task's function has come back, and its event has come, where it has one. */
static void finish(struct task *task)
{
    struct team *team = task->team;
    __shasta_finish_dependences(task);
    if (task->group != 0)
        __atomic_fetch_sub(&task->group->unfinished, 1, __ATOMIC_ACQ_REL);
    struct task *parent = task->parent;
    __atomic_fetch_sub(&parent->children, 1, __ATOMIC_ACQ_REL);
    if (parent->is_explicit)
        __shasta_release(parent);
    __shasta_release(task);
    __atomic_fetch_sub(&team->unfinished, 1, __ATOMIC_ACQ_REL);
}

/* Does a task as the thread `number` of its team. */
static void do_task(struct task *task, unsigned number)
{
    task->number = number;
    __shasta_run_as(task, task->function, task->data);
    __shasta_drop_dependences(task);
    free(task->own_settings);
    if (__atomic_sub_fetch(&task->detached, 1, __ATOMIC_ACQ_REL) == 0)
        finish(task);
}

void __shasta_do_task_or_rest(struct task *task, enum wait wait, struct group *group)
{
    struct team *team = task->team;
    unsigned size = team != 0 && team->queues != 0 ? team->size : 0;
    for (unsigned k = 0; k < size; k += 1) {
        unsigned number = (task->number + k) % size;
        struct task *taken = take_from(&team->queues[number], k == 0, task, wait, group);
        if (taken == 0)
            continue;
        do_task(taken, task->number);
        return;
    }
    shasta_rest();
}

void __shasta_wait_for_children(struct task *task)
{
    while (__atomic_load_n(&task->children, __ATOMIC_ACQUIRE) != 0)
        __shasta_do_task_or_rest(task, CHILDREN, 0);
}

/* A task with its data behind it, at a multiple of `align`. */
static struct task *new_task(struct task *parent, void (*function)(void *), size_t bytes,
                             size_t align, unsigned flags)
{
    size_t head = (sizeof(struct task) + align - 1) / align * align;
    size_t multiple = align > SHASTA_LINE ? align : SHASTA_LINE;
    struct task *task = memalign(multiple, head + bytes);
    if (task == 0)
        fail();
    *task = (struct task){
        .parent = parent,
        .team = parent->team,
        .number = parent->number,
        .settings = parent->settings,
        .is_final = parent->is_final || flags & TASK_FINAL,
        .is_explicit = true,
        .group = parent->group,
        .function = function,
        .data = (char *)task + head,
        .uses = 1,
        .detached = 1 + ((flags & TASK_DETACH) != 0),
    };
    return task;
}

static void copy_data(struct task *task, void *data, void (*copy)(void *, void *), size_t bytes)
{
    if (copy != 0)
        copy(task->data, data);
    else
        memcpy(task->data, data, bytes);
}

/* Counts a task with its parent, its group and its team, until it is finished. */
static void count(struct task *task)
{
    __atomic_fetch_add(&task->team->unfinished, 1, __ATOMIC_ACQ_REL);
    __atomic_fetch_add(&task->parent->children, 1, __ATOMIC_ACQ_REL);
    if (task->parent->is_explicit)
        __atomic_fetch_add(&task->parent->uses, 1, __ATOMIC_RELAXED);
    if (task->group != 0)
        __atomic_fetch_add(&task->group->unfinished, 1, __ATOMIC_ACQ_REL);
}

/* A task that its parent does at once: where `if` says so, within a final task, and where there is no
   other thread. */
static void do_at_once(struct task *parent, struct task *task, void **depend)
{
    if (depend != 0)
        __shasta_wait_for_dependences(parent, depend);
    __shasta_run_as(task, task->function, task->data);
    __shasta_drop_dependences(task);
    free(task->own_settings);
    __atomic_fetch_sub(&task->detached, 1, __ATOMIC_ACQ_REL);
    while (__atomic_load_n(&task->detached, __ATOMIC_ACQUIRE) != 0)
        __shasta_do_task_or_rest(parent, CHILDREN, 0);
    __shasta_release(task);
}

void GOMP_task(void (*function)(void *), void *data, void (*copy)(void *, void *), long bytes,
               long align, _Bool is_deferred, unsigned flags, void **depend, int priority,
               void *detach)
{
    struct task *parent = __shasta_task();
    struct task *task = new_task(parent, function, (size_t)bytes, (size_t)align, flags);
    (void)priority;
    if (flags & TASK_DETACH) {
        *(void **)detach = task;
        if (data != 0)
            *(void **)data = task;
    }
    copy_data(task, data, copy, (size_t)bytes);
    if (!(flags & TASK_DEPEND))
        depend = 0;
    if (!is_deferred || parent->is_final || parent->team == 0 || parent->team->queues == 0) {
        do_at_once(parent, task, depend);
        return;
    }
    count(task);
    if (depend == 0)
        __shasta_queue(task);
    else
        __shasta_add_dependences(task, depend);
}

void omp_fulfill_event(omp_event_handle_t event)
{
    struct task *task = (struct task *)event;
    if (__atomic_sub_fetch(&task->detached, 1, __ATOMIC_ACQ_REL) == 0)
        finish(task);
}

void GOMP_taskwait(void)
{
    __shasta_wait_for_children(__shasta_task());
}

void GOMP_taskwait_depend(void **depend)
{
    __shasta_wait_for_dependences(__shasta_task(), depend);
}

/* Any task that waits may be done here. */
void GOMP_taskyield(void)
{
    __shasta_do_task_or_rest(__shasta_task(), CHILDREN, 0);
}

void __shasta_begin_group(struct task *task, struct group *group)
{
    *group = (struct group){.outer = task->group};
    if (group->outer != 0)
        group->reductions = group->outer->reductions;
    task->group = group;
}

void __shasta_end_group(struct task *task)
{
    struct group *group = task->group;
    while (__atomic_load_n(&group->unfinished, __ATOMIC_ACQUIRE) != 0)
        __shasta_do_task_or_rest(task, GROUP, group);
    task->group = group->outer;
}

void GOMP_taskgroup_start(void)
{
    struct group *group = memalign(SHASTA_LINE, sizeof *group);
    if (group == 0)
        fail();
    __shasta_begin_group(__shasta_task(), group);
}

void GOMP_taskgroup_end(void)
{
    struct task *task = __shasta_task();
    struct group *group = task->group;
    if (group == 0)
        return;
    __shasta_end_group(task);
    free(group);
}
