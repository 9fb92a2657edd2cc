/* Loops whose counter has 64 bits: the calls that GCC makes, as in omp_loop.c. Where `up` is false the
   step is negative. */
#include "omp_loop.h"

static wide count_of(bool up, wide start, wide end, wide step)
{
    if (up)
        return start < end ? (end - start - 1) / step + 1 : 0;
    return start > end ? (start - end - 1) / -step + 1 : 0;
}

static struct loop loop_of(bool up, wide start, wide end, wide step, unsigned kind, wide chunk)
{
    return (struct loop){
        .start = start,
        .end = end,
        .step = step,
        .count = count_of(up, start, end, step),
        .chunk = chunk,
        .kind = kind,
    };
}

static bool take(wide *from, wide *to)
{
    struct task *task = __shasta_task();
    struct share *share = task->share;
    struct part part;
    if (!__shasta_take_part(task, &part))
        return false;
    *from = share->start + part.first * share->step;
    *to = part.first + part.count == share->count ? share->end : *from + part.count * share->step;
    return true;
}

#define NEXT(name)                                                                           \
    _Bool GOMP_loop_ull_##name##_next(wide *from, wide *to)                                  \
    {                                                                                        \
        return take(from, to);                                                               \
    }

#define CHUNKS(name, kind)                                                                   \
    _Bool GOMP_loop_ull_##name##_start(_Bool up, wide start, wide end, wide step,            \
                                       wide chunk, wide *from, wide *to)                     \
    {                                                                                        \
        struct loop loop = loop_of(up, start, end, step, kind, chunk);                       \
        __shasta_start_loop(&loop, 0);                                                       \
        return take(from, to);                                                               \
    }                                                                                        \
    NEXT(name)

#define NO_CHUNKS(name, kind)                                                                \
    _Bool GOMP_loop_ull_##name##_start(_Bool up, wide start, wide end, wide step,            \
                                       wide *from, wide *to)                                 \
    {                                                                                        \
        struct loop loop = loop_of(up, start, end, step, kind, 0);                           \
        __shasta_start_loop(&loop, 0);                                                       \
        return take(from, to);                                                               \
    }                                                                                        \
    NEXT(name)

CHUNKS(static, STATIC)
CHUNKS(dynamic, DYNAMIC)
CHUNKS(guided, GUIDED)
CHUNKS(nonmonotonic_dynamic, DYNAMIC)
CHUNKS(nonmonotonic_guided, GUIDED)
NO_CHUNKS(runtime, 0)
NO_CHUNKS(nonmonotonic_runtime, 0)
NO_CHUNKS(maybe_nonmonotonic_runtime, 0)
CHUNKS(ordered_static, STATIC | ORDERED)
CHUNKS(ordered_dynamic, DYNAMIC | ORDERED)
CHUNKS(ordered_guided, GUIDED | ORDERED)
NO_CHUNKS(ordered_runtime, ORDERED)

static bool start_general(struct loop loop, wide *from, wide *to, uintptr_t *reductions,
                          void **memory)
{
    loop.reductions = reductions;
    loop.memory = memory != 0 ? (size_t)*memory : 0;
    __shasta_start_loop(&loop, memory);
    return from == 0 || take(from, to);
}

_Bool GOMP_loop_ull_start(_Bool up, wide start, wide end, wide step, long kind, wide chunk,
                          wide *from, wide *to, uintptr_t *reductions, void **memory)
{
    struct loop loop = loop_of(up, start, end, step, (unsigned)kind, chunk);
    return start_general(loop, from, to, reductions, memory);
}

_Bool GOMP_loop_ull_ordered_start(_Bool up, wide start, wide end, wide step, long kind, wide chunk,
                                  wide *from, wide *to, uintptr_t *reductions, void **memory)
{
    struct loop loop = loop_of(up, start, end, step, (unsigned)kind | ORDERED, chunk);
    return start_general(loop, from, to, reductions, memory);
}

static bool start_doacross(unsigned dimensions, const wide *counts, unsigned kind, wide chunk,
                           wide *from, wide *to, uintptr_t *reductions, void **memory)
{
    struct loop loop = loop_of(true, 0, counts[0], 1, kind, chunk);
    loop.dimensions = dimensions;
    loop.sizes = counts;
    return start_general(loop, from, to, reductions, memory);
}

#define DOACROSS(name, kind)                                                                 \
    _Bool GOMP_loop_ull_doacross_##name##_start(unsigned dimensions, wide *counts,           \
                                                wide chunk, wide *from, wide *to)            \
    {                                                                                        \
        return start_doacross(dimensions, counts, kind, chunk, from, to, 0, 0);              \
    }

DOACROSS(static, STATIC)
DOACROSS(dynamic, DYNAMIC)
DOACROSS(guided, GUIDED)

_Bool GOMP_loop_ull_doacross_runtime_start(unsigned dimensions, wide *counts, wide *from, wide *to)
{
    return start_doacross(dimensions, counts, 0, 0, from, to, 0, 0);
}

_Bool GOMP_loop_ull_doacross_start(unsigned dimensions, wide *counts, long kind, wide chunk,
                                   wide *from, wide *to, uintptr_t *reductions, void **memory)
{
    return start_doacross(dimensions, counts, (unsigned)kind, chunk, from, to, reductions, memory);
}
