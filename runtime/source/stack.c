/* The memory of threads: stacks in shared memory, since what a thread hands on by address may lie on
   its stack, or in its thread-local data. */
#include "thread.h"

#include <malloc.h>
#include <stdint.h>

extern const char __shasta_thread_size[] __attribute__((weak));

/* What stands in the lowest line of a stack until the stack is used up, and how much memory below this
   line isn't used, so that a stack that is used up may spoil nothing until this is seen. */
static const unsigned UNUSED = 0x5ac0ffee;
enum { WORDS = SHASTA_LINE / sizeof(unsigned), GAP = 4096 };

/* Stacks of the size that is the default, which threads had before. */
static struct {
    struct shasta_lock lock;
    struct thread *first;
} free_stacks;

static struct thread *take_used(void)
{
    __shasta_enter(&free_stacks.lock);
    struct thread *thread = free_stacks.first;
    if (thread != 0)
        free_stacks.first = thread->next;
    shasta_leave(&free_stacks.lock);
    return thread;
}

static size_t in_lines(size_t bytes)
{
    return (bytes + SHASTA_LINE - 1) & -(size_t)SHASTA_LINE;
}

static char *end_of_stack(const struct thread *thread)
{
    return (char *)thread - in_lines((size_t)__shasta_thread_size);
}

struct thread *__shasta_take_stack(size_t bytes)
{
    size_t room = in_lines(bytes);
    size_t data = in_lines((size_t)__shasta_thread_size);
    struct thread *thread = room == in_lines(DEFAULT_STACK) ? take_used() : 0;
    if (thread == 0) {
        size_t all = GAP + room + data + sizeof *thread;
        char *block = room < bytes || all < room ? 0 : memalign(SHASTA_LINE, all);
        if (block == 0)
            return 0;
        thread = (struct thread *)(block + GAP + room + data);
        thread->lowest = block + GAP;
    }
    thread->stack = end_of_stack(thread);
    return thread;
}

void __shasta_give_stack(struct thread *thread)
{
    thread->is_live = 0;
    if ((size_t)(end_of_stack(thread) - (char *)thread->lowest) != in_lines(DEFAULT_STACK)) {
        free((char *)thread->lowest - GAP);
        return;
    }
    __shasta_enter(&free_stacks.lock);
    thread->next = free_stacks.first;
    free_stacks.first = thread;
    shasta_leave(&free_stacks.lock);
}

void __shasta_mark_stack(const struct thread *thread)
{
    unsigned *lowest = thread->lowest;
    for (unsigned k = 0; k < WORDS; k += 1)
        lowest[k] = UNUSED;
}

void __shasta_check_stack(const struct thread *thread)
{
    const unsigned *lowest = thread->lowest;
    if (lowest == 0)
        return;
    if (lowest[0] != UNUSED || lowest[WORDS - 1] != UNUSED || (char *)&lowest < (char *)lowest)
        __shasta_fail("shasta: a thread's stack is used up: "
                      "-Wl,--defsym=__thread_stack_size=BYTES gives more\n");
}
