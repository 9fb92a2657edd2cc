/* Loops whose parts are tasks. The data of each begins with its start and its end. */
#include "omp.h"

enum {
    LOOP_UP = 0x100,
    LOOP_GRAINSIZE = 0x200,
    LOOP_IF = 0x400,
    LOOP_NOGROUP = 0x800,
    LOOP_REDUCTION = 0x1000,
    LOOP_STRICT = 0x4000
};

void GOMP_task(void (*function)(void *), void *data, void (*copy)(void *, void *), long bytes,
               long align, _Bool is_deferred, unsigned flags, void **depend, int priority,
               void *detach);
void GOMP_taskgroup_start(void);
void GOMP_taskgroup_end(void);
void GOMP_taskgroup_reduction_register(uintptr_t *reductions);

/* What a loop of tasks is cut into: so many tasks, of which the first `longer` ones have one iteration
   more than the others; or the last one has what is left, where a grain size is strict. */
struct cut {
    wide tasks;
    wide each;
    wide longer;
};

static struct cut cut_loop(wide count, wide asked, unsigned flags, unsigned threads)
{
    if (flags & LOOP_GRAINSIZE && flags & LOOP_STRICT)
        return (struct cut){(count + asked - 1) / asked, asked, 0};
    wide tasks = asked;
    if (flags & LOOP_GRAINSIZE)
        tasks = count / asked;
    else if (asked == 0)
        tasks = threads;
    if (tasks == 0)
        tasks = 1;
    if (tasks > count)
        tasks = count;
    return (struct cut){tasks, count / tasks, count % tasks};
}

/* What all tasks of a loop have in common. */
struct taskloop {
    void (*function)(void *);
    void *data;
    void (*copy)(void *, void *);
    long bytes, align;
    unsigned flags;
    int priority;
};

static void begin_group(const struct taskloop *loop, void *reductions)
{
    if (loop->flags & LOOP_NOGROUP)
        return;
    GOMP_taskgroup_start();
    if (loop->flags & LOOP_REDUCTION)
        GOMP_taskgroup_reduction_register(reductions);
}

/* A loop without iterations has no group. Who would give its reductions back is told so by the word
   that leads to their memory. */
static void begin_no_group(const struct taskloop *loop, uintptr_t *reductions)
{
    if (!(loop->flags & LOOP_NOGROUP) && loop->flags & LOOP_REDUCTION)
        reductions[2] = 0;
}

static void make_task(const struct taskloop *loop)
{
    GOMP_task(loop->function, loop->data, loop->copy, loop->bytes, loop->align,
              (loop->flags & LOOP_IF) != 0, loop->flags & 0xff & ~8u, 0, loop->priority, 0);
}

void GOMP_taskloop(void (*function)(void *), void *data, void (*copy)(void *, void *), long bytes,
                   long align, unsigned flags, unsigned long asked, int priority, long start,
                   long end, long step)
{
    struct taskloop loop = {function, data, copy, bytes, align, flags, priority};
    const struct task *task = __shasta_task();
    struct pair {
        long start, end;
        uintptr_t *reductions;
    } *pair = data;
    unsigned long span = step > 0 ? (unsigned long)end - (unsigned long)start
                                  : (unsigned long)start - (unsigned long)end;
    unsigned long by = step > 0 ? (unsigned long)step : -(unsigned long)step;
    if (step > 0 ? start >= end : start <= end) {
        begin_no_group(&loop, pair->reductions);
        return;
    }
    wide count = (span - 1) / by + 1;
    struct cut cut = cut_loop(count, asked, flags, task->team != 0 ? task->team->size : 1);
    begin_group(&loop, pair->reductions);
    for (wide k = 0, done = 0; k < cut.tasks && done < count; k += 1) {
        wide part = cut.each + (k < cut.longer);
        bool is_last = done + part >= count;
        pair->start = (long)((unsigned long)start + (unsigned long)done * (unsigned long)step);
        done += part;
        pair->end = is_last
                        ? end
                        : (long)((unsigned long)start + (unsigned long)done * (unsigned long)step);
        make_task(&loop);
    }
    if (!(flags & LOOP_NOGROUP))
        GOMP_taskgroup_end();
}

void GOMP_taskloop_ull(void (*function)(void *), void *data, void (*copy)(void *, void *),
                       long bytes, long align, unsigned flags, unsigned long asked, int priority,
                       wide start, wide end, wide step)
{
    struct taskloop loop = {function, data, copy, bytes, align, flags, priority};
    const struct task *task = __shasta_task();
    struct pair {
        wide start, end;
        uintptr_t *reductions;
    } *pair = data;
    bool up = flags & LOOP_UP;
    if (up ? start >= end : start <= end) {
        begin_no_group(&loop, pair->reductions);
        return;
    }
    wide count = up ? (end - start - 1) / step + 1 : (start - end - 1) / -step + 1;
    struct cut cut = cut_loop(count, asked, flags, task->team != 0 ? task->team->size : 1);
    begin_group(&loop, pair->reductions);
    for (wide k = 0, done = 0; k < cut.tasks && done < count; k += 1) {
        wide part = cut.each + (k < cut.longer);
        bool is_last = done + part >= count;
        pair->start = start + done * step;
        done += part;
        pair->end = is_last ? end : start + done * step;
        make_task(&loop);
    }
    if (!(flags & LOOP_NOGROUP))
        GOMP_taskgroup_end();
}
