/* Task reductions. A descriptor has [0] how many variables, [1] how many bytes for each thread, [2] their
   alignment, and then their memory, [4] the next descriptor, [5] whether it is the first of those that
   were registered together, [6] the memory's end, and from [7] on three words for each variable: its
   address, and its place in the memory of a thread. */
#include "omp.h"

#include <malloc.h>
#include <string.h>

enum { COUNT, BYTES, MEMORY, NEXT = 4, IS_FIRST, END, VARIABLES };

static uintptr_t *next_of(const uintptr_t *descriptor)
{
    return (uintptr_t *)descriptor[NEXT];
}

void __shasta_register_reductions(struct group *group, uintptr_t *reductions, const uintptr_t *of,
                                  unsigned threads)
{
    uintptr_t *descriptor = reductions;
    for (;;) {
        descriptor[IS_FIRST] = descriptor == reductions;
        if (of != 0) {
            descriptor[MEMORY] = of[MEMORY];
            descriptor[END] = of[END];
            of = next_of(of);
        } else {
            size_t bytes = descriptor[BYTES] * threads;
            size_t align = descriptor[MEMORY] > SHASTA_LINE ? descriptor[MEMORY] : SHASTA_LINE;
            void *memory = memalign(align, bytes);
            if (memory == 0)
                __shasta_fail("shasta: no memory for OpenMP: -Wl,--defsym=__heap_size=BYTES gives more\n");
            memset(memory, 0, bytes);
            descriptor[MEMORY] = (uintptr_t)memory;
            descriptor[END] = (uintptr_t)memory + bytes;
        }
        if (descriptor[NEXT] == 0)
            break;
        descriptor = next_of(descriptor);
    }
    descriptor[NEXT] = (uintptr_t)group->reductions;
    group->reductions = reductions;
}

void __shasta_free_reductions(uintptr_t *reductions)
{
    uintptr_t *descriptor = reductions;
    do {
        free((void *)descriptor[MEMORY]);
        descriptor = next_of(descriptor);
    } while (descriptor != 0 && !descriptor[IS_FIRST]);
}

static unsigned team_size(const struct task *task)
{
    return task->team != 0 ? task->team->size : 1;
}

void GOMP_taskgroup_reduction_register(uintptr_t *reductions)
{
    struct task *task = __shasta_task();
    __shasta_register_reductions(task->group, reductions, 0, team_size(task));
}

void GOMP_taskgroup_reduction_unregister(uintptr_t *reductions)
{
    __shasta_free_reductions(reductions);
}

/* The descriptor and the variable that an address stands for: the variable's own one, or a copy's. */
static const uintptr_t *find(const uintptr_t *descriptor, uintptr_t address,
                             const uintptr_t **variable)
{
    for (; descriptor != 0; descriptor = next_of(descriptor)) {
        bool is_copy = address >= descriptor[MEMORY] && address < descriptor[END];
        uintptr_t offset = is_copy ? (address - descriptor[MEMORY]) % descriptor[BYTES] : 0;
        for (uintptr_t k = 0; k < descriptor[COUNT]; k += 1) {
            *variable = &descriptor[VARIABLES + 3 * k];
            if (is_copy ? (*variable)[1] == offset : (*variable)[0] == address)
                return descriptor;
        }
    }
    __shasta_fail("shasta: a task reduces a variable that no group reduces\n");
}

/* Gives for each variable this thread's copy, and for the first ones the variables themselves. */
void GOMP_task_reduction_remap(size_t count, size_t originals, void **addresses)
{
    struct task *task = __shasta_task();
    for (size_t k = 0; k < count; k += 1) {
        const uintptr_t *variable;
        const uintptr_t *descriptor =
            find(task->group->reductions, (uintptr_t)addresses[k], &variable);
        addresses[k] =
            (void *)(descriptor[MEMORY] + task->number * descriptor[BYTES] + variable[1]);
        if (k < originals)
            addresses[count + k] = (void *)variable[0];
    }
}

/* The first thread that comes to a work share makes the memory, for all. */
void __shasta_share_reductions(struct task *task, struct share *share, uintptr_t *reductions)
{
    struct group *group = memalign(SHASTA_LINE, sizeof *group);
    if (group == 0)
        __shasta_fail("shasta: no memory for OpenMP: -Wl,--defsym=__heap_size=BYTES gives more\n");
    __shasta_begin_group(task, group);
    shasta_enter(&share->lock);
    __shasta_register_reductions(group, reductions, share->reductions, team_size(task));
    if (share->reductions == 0)
        share->reductions = reductions;
    shasta_leave(&share->lock);
}

void GOMP_workshare_task_reduction_unregister(_Bool cancelled)
{
    struct task *task = __shasta_task();
    struct group *group = task->group;
    uintptr_t *reductions = group->reductions;
    (void)cancelled;
    __shasta_end_group(task);
    free(group);
    __shasta_team_barrier(task);
    if (task->number == 0)
        __shasta_free_reductions(reductions);
}
