/* Work shares. */
#include "omp.h"

/* Outside of all regions a thread is a team of one, whose shares are its own. */
static _Thread_local struct share alone;

static void begin_share(struct share *share, unsigned number, unsigned size,
                        void (*begin)(struct share *share, const void *what), const void *what)
{
    shasta_enter(&share->lock);
    if (share->number != number) {
        while (share->number != 0 && __atomic_load_n(&share->left, __ATOMIC_ACQUIRE) != size)
            shasta_rest();
        share->left = 0;
        begin(share, what);
        __atomic_store_n(&share->number, number, __ATOMIC_RELEASE);
    }
    shasta_leave(&share->lock);
}

struct share *__shasta_come_to_share(struct task *task,
                                     void (*begin)(struct share *share, const void *what),
                                     const void *what)
{
    if (task->team == 0) {
        begin(&alone, what);
        return task->share = &alone;
    }
    unsigned number = task->shares += 1;
    struct share *share = &task->team->shares[number % SHARES];
    task->share = share;
    task->trip = 0;
    task->has_chunk = false;
    if (__atomic_load_n(&share->number, __ATOMIC_ACQUIRE) != number)
        begin_share(share, number, task->team->size, begin, what);
    return share;
}

void __shasta_leave_share(struct task *task)
{
    struct share *share = task->share;
    task->share = 0;
    if (share != 0 && share != &alone)
        __atomic_fetch_add(&share->left, 1, __ATOMIC_RELEASE);
}
