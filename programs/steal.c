/* Tasks with stealing: each processor has a queue of tasks, and takes one of another's where its
   own is empty. A task adds up a stretch of numbers, or makes two tasks of its halves; the later
   numbers cost more. A processor adds what it has found to the sum of all when its own queue is
   empty, and before it takes another's lock it looks whether there is a task. Each adds a part of
   the numbers up alone.

   Layout: a queue's lock, its ends and its tasks are written by its owner, and by others only where
   they steal: each is at home at its owner. */
#include "kernel.h"

#ifndef SIZE
#define SIZE 4096
#endif
enum { TASKS = 32, PIECES = 1024, SMALL = SIZE / PIECES > 64 ? SIZE / PIECES : 64, ROUNDS = 4 };

struct task {
    unsigned from;
    unsigned to;
};

/* Tasks stand from `oldest` on, `count` of them, in a ring. */
struct queue {
    struct lock lock;
    unsigned oldest;
    unsigned count;
    struct task tasks[TASKS];
};

static struct {
    struct queue queue;
} __attribute__((aligned(1024))) queues[MOST];
static struct barrier barrier;
static unsigned left IN_OWN_LINE;
static unsigned total IN_OWN_LINE;
static unsigned alone IN_OWN_LINE;

/* What a number adds, in some rounds. */
static unsigned value(unsigned number)
{
    unsigned rounds = 1 + number / (SIZE / ROUNDS), result = number;
    for (unsigned round = 0; round < rounds; round += 1)
        result = next_of(result);
    return result >> 10;
}

/* Puts a task into this processor's queue, and says whether there was room. */
static int put(struct task task)
{
    struct queue *queue = &queues[processor()].queue;
    enter(&queue->lock);
    int has_room = queue->count < TASKS;
    if (has_room) {
        queue->tasks[(queue->oldest + queue->count) % TASKS] = task;
        queue->count += 1;
    }
    leave(&queue->lock);
    return has_room;
}

/* Takes the newest task of the processor's own queue, or the oldest of another's. */
static int take(unsigned owner, struct task *task)
{
    struct queue *queue = &queues[owner].queue;
    if (__atomic_load_n(&queue->count, __ATOMIC_RELAXED) == 0)
        return 0;
    enter(&queue->lock);
    int is_there = queue->count != 0;
    if (is_there) {
        unsigned newest = queue->oldest + queue->count - 1;
        *task = queue->tasks[(owner == processor() ? newest : queue->oldest) % TASKS];
        queue->oldest += owner != processor();
        queue->count -= 1;
    }
    leave(&queue->lock);
    return is_there;
}

/* Adds a stretch up, after it has put its second halves into the queue. */
static unsigned run(struct task *task)
{
    unsigned sum = 0;
    while (task->to - task->from > SMALL) {
        unsigned middle = task->from + (task->to - task->from) / 2;
        if (!put((struct task){middle, task->to}))
            break;
        task->to = middle;
    }
    for (unsigned number = task->from; number < task->to; number += 1)
        sum += value(number);
    return sum;
}

/* Takes a task of its own, or else of the others in turn. */
static int take_any(struct task *task)
{
    for (unsigned k = 0; k < processors(); k += 1)
        if (take((processor() + k) % processors(), task))
            return 1;
    return 0;
}

/* Runs tasks until the own queue is empty, and tells what they were; then it takes another's. */
static void run_all(void)
{
    struct task task;
    unsigned sum = 0, done = 0;
    while (__atomic_load_n(&left, __ATOMIC_ACQUIRE) != 0) {
        if (!take_any(&task)) {
            rest();
            continue;
        }
        do {
            sum += run(&task);
            done += task.to - task.from;
        } while (take(processor(), &task));
        fetch_and_add(&total, sum);
        fetch_and_add(&left, -done);
        sum = done = 0;
    }
}

static void work(void *unused)
{
    unsigned from = first_of(SIZE, processor()), to = first_of(SIZE, processor() + 1), sum = 0;
    (void)unused;
    put((struct task){from, to});
    meet(&barrier, processors());
    phase(1);
    run_all();
    meet(&barrier, processors());
    phase(2);
    for (unsigned number = processor(); number < SIZE; number += processors())
        sum += value(number);
    fetch_and_add(&alone, sum);
}

int main(void)
{
    left = SIZE;
    parallel(work, 0);
    tell(total, total != alone);
    return report("steal");
}
