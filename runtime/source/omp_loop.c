/* Loops whose counter is a long: the calls that GCC makes. `start` begins a loop and takes the first
   part, `next` takes the next one: false where there is none. A part ends before *to. */
#include "omp_loop.h"

static wide count_of(long start, long end, long step)
{
    unsigned long from = (unsigned long)start, to = (unsigned long)end, by = (unsigned long)step;
    if (step > 0)
        return start < end ? (to - from - 1) / by + 1 : 0;
    return start > end ? (from - to - 1) / -by + 1 : 0;
}

static struct loop loop_of(long start, long end, long step, unsigned kind, long chunk)
{
    return (struct loop){
        .start = (unsigned long)start,
        .end = (unsigned long)end,
        .step = (unsigned long)step,
        .count = count_of(start, end, step),
        .chunk = (unsigned long)chunk,
        .kind = kind,
    };
}

static bool take(long *from, long *to)
{
    struct task *task = __shasta_task();
    struct share *share = task->share;
    struct part part;
    if (!__shasta_take_part(task, &part))
        return false;
    unsigned long start = (unsigned long)share->start, step = (unsigned long)share->step;
    *from = (long)(start + (unsigned long)part.first * step);
    *to = part.first + part.count == share->count
              ? (long)share->end
              : (long)((unsigned long)*from + (unsigned long)part.count * step);
    return true;
}

#define NEXT(name)                                                                           \
    _Bool GOMP_loop_##name##_next(long *from, long *to)                                      \
    {                                                                                        \
        return take(from, to);                                                               \
    }

#define CHUNKS(name, kind)                                                                   \
    _Bool GOMP_loop_##name##_start(long start, long end, long step, long chunk, long *from,  \
                                   long *to)                                                 \
    {                                                                                        \
        struct loop loop = loop_of(start, end, step, kind, chunk);                           \
        __shasta_start_loop(&loop, 0);                                                       \
        return take(from, to);                                                               \
    }                                                                                        \
    NEXT(name)

#define NO_CHUNKS(name, kind)                                                                \
    _Bool GOMP_loop_##name##_start(long start, long end, long step, long *from, long *to)    \
    {                                                                                        \
        struct loop loop = loop_of(start, end, step, kind, 0);                               \
        __shasta_start_loop(&loop, 0);                                                       \
        return take(from, to);                                                               \
    }                                                                                        \
    NEXT(name)

CHUNKS(static, STATIC)
CHUNKS(dynamic, DYNAMIC)
CHUNKS(guided, GUIDED)
CHUNKS(nonmonotonic_dynamic, DYNAMIC)
CHUNKS(nonmonotonic_guided, GUIDED)
NO_CHUNKS(runtime, 0)
NO_CHUNKS(nonmonotonic_runtime, 0)
NO_CHUNKS(maybe_nonmonotonic_runtime, 0)
CHUNKS(ordered_static, STATIC | ORDERED)
CHUNKS(ordered_dynamic, DYNAMIC | ORDERED)
CHUNKS(ordered_guided, GUIDED | ORDERED)
NO_CHUNKS(ordered_runtime, ORDERED)

/* A region that is a loop: it is begun with the region, so each thread takes its first part by
   `next`. */
static void run_loop(void (*function)(void *), void *data, unsigned threads, struct loop loop)
{
    __shasta_region(function, data, threads, __shasta_begin_loop, &loop, 0);
}

#define REGION(name, kind)                                                                   \
    void GOMP_parallel_loop_##name(void (*function)(void *), void *data, unsigned threads,   \
                                   long start, long end, long step, long chunk,              \
                                   unsigned flags)                                           \
    {                                                                                        \
        (void)flags;                                                                         \
        run_loop(function, data, threads, loop_of(start, end, step, kind, chunk));           \
    }

#define REGION_NO_CHUNKS(name)                                                               \
    void GOMP_parallel_loop_##name(void (*function)(void *), void *data, unsigned threads,   \
                                   long start, long end, long step, unsigned flags)          \
    {                                                                                        \
        (void)flags;                                                                         \
        run_loop(function, data, threads, loop_of(start, end, step, 0, 0));                  \
    }

REGION(static, STATIC)
REGION(dynamic, DYNAMIC)
REGION(guided, GUIDED)
REGION(nonmonotonic_dynamic, DYNAMIC)
REGION(nonmonotonic_guided, GUIDED)
REGION_NO_CHUNKS(runtime)
REGION_NO_CHUNKS(nonmonotonic_runtime)
REGION_NO_CHUNKS(maybe_nonmonotonic_runtime)

/* The general starts. `from` may be 0: the loop is only begun. */
static bool start_general(struct loop loop, long *from, long *to, uintptr_t *reductions,
                          void **memory)
{
    loop.reductions = reductions;
    loop.memory = memory != 0 ? (size_t)*memory : 0;
    __shasta_start_loop(&loop, memory);
    return from == 0 || take(from, to);
}

_Bool GOMP_loop_start(long start, long end, long step, long kind, long chunk, long *from, long *to,
                      uintptr_t *reductions, void **memory)
{
    struct loop loop = loop_of(start, end, step, (unsigned)kind, chunk);
    return start_general(loop, from, to, reductions, memory);
}

_Bool GOMP_loop_ordered_start(long start, long end, long step, long kind, long chunk, long *from,
                              long *to, uintptr_t *reductions, void **memory)
{
    struct loop loop = loop_of(start, end, step, (unsigned)kind | ORDERED, chunk);
    return start_general(loop, from, to, reductions, memory);
}

enum { MOST_DIMENSIONS = 128 };

static bool start_doacross(unsigned dimensions, const long *counts, unsigned kind, long chunk,
                           long *from, long *to, uintptr_t *reductions, void **memory)
{
    wide sizes[MOST_DIMENSIONS];
    struct loop loop = loop_of(0, counts[0], 1, kind, chunk);
    for (unsigned k = 0; k < dimensions; k += 1)
        sizes[k] = (unsigned long)counts[k];
    loop.dimensions = dimensions;
    loop.sizes = sizes;
    return start_general(loop, from, to, reductions, memory);
}

#define DOACROSS(name, kind)                                                                 \
    _Bool GOMP_loop_doacross_##name##_start(unsigned dimensions, long *counts, long chunk,   \
                                            long *from, long *to)                            \
    {                                                                                        \
        return start_doacross(dimensions, counts, kind, chunk, from, to, 0, 0);              \
    }

DOACROSS(static, STATIC)
DOACROSS(dynamic, DYNAMIC)
DOACROSS(guided, GUIDED)

_Bool GOMP_loop_doacross_runtime_start(unsigned dimensions, long *counts, long *from, long *to)
{
    return start_doacross(dimensions, counts, 0, 0, from, to, 0, 0);
}

_Bool GOMP_loop_doacross_start(unsigned dimensions, long *counts, long kind, long chunk, long *from,
                               long *to, uintptr_t *reductions, void **memory)
{
    return start_doacross(dimensions, counts, (unsigned)kind, chunk, from, to, reductions, memory);
}
