/* Regions, sections, and the ends of work shares. */
#include "omp_loop.h"

void GOMP_parallel(void (*function)(void *), void *data, unsigned threads, unsigned flags)
{
    (void)flags;
    __shasta_region(function, data, threads, 0, 0, 0);
}

/* The caller adds up what the threads have, and gives the memory back. */
unsigned GOMP_parallel_reductions(void (*function)(void *), void *data, unsigned threads,
                                  unsigned flags)
{
    uintptr_t *reductions = *(uintptr_t **)data;
    unsigned size = __shasta_team_size(threads);
    (void)flags;
    __shasta_region(function, data, threads, 0, 0, reductions);
    return size;
}

/* Sections are the iterations of a loop, whose numbers begin at 1. */
static struct loop loop_of(unsigned count)
{
    return (struct loop){
        .start = 1, .end = count + 1, .step = 1, .count = count, .chunk = 1, .kind = DYNAMIC};
}

void GOMP_parallel_sections(void (*function)(void *), void *data, unsigned threads, unsigned count,
                            unsigned flags)
{
    struct loop loop = loop_of(count);
    (void)flags;
    __shasta_region(function, data, threads, __shasta_begin_loop, &loop, 0);
}

unsigned GOMP_sections_next(void)
{
    struct part part;
    return __shasta_take_part(__shasta_task(), &part) ? (unsigned)part.first + 1 : 0;
}

unsigned GOMP_sections2_start(unsigned count, uintptr_t *reductions, void **memory)
{
    struct loop loop = loop_of(count);
    loop.reductions = reductions;
    loop.memory = memory != 0 ? (size_t)*memory : 0;
    __shasta_start_loop(&loop, memory);
    return GOMP_sections_next();
}

unsigned GOMP_sections_start(unsigned count)
{
    return GOMP_sections2_start(count, 0, 0);
}

/* A scope is a work share in which nothing is shared out. */
void GOMP_scope_start(uintptr_t *reductions)
{
    struct loop loop = loop_of(0);
    loop.reductions = reductions;
    __shasta_start_loop(&loop, 0);
    __shasta_leave_share(__shasta_task());
}

void GOMP_loop_end_nowait(void)
{
    __shasta_leave_share(__shasta_task());
}

void GOMP_loop_end(void)
{
    GOMP_loop_end_nowait();
    __shasta_team_barrier(__shasta_task());
}

_Bool GOMP_loop_end_cancel(void)
{
    GOMP_loop_end();
    return false;
}

void GOMP_sections_end_nowait(void)
{
    GOMP_loop_end_nowait();
}

void GOMP_sections_end(void)
{
    GOMP_loop_end();
}

_Bool GOMP_sections_end_cancel(void)
{
    return GOMP_loop_end_cancel();
}

/* Teams on the host: one after the other. */
void GOMP_teams_reg(void (*function)(void *), void *data, unsigned teams, unsigned limit,
                    unsigned flags)
{
    struct task *task = __shasta_task();
    struct settings before = *task->settings;
    struct settings *settings = __shasta_own_settings(task);
    struct team team = {
        .parent = task,
        .size = 1,
        .teams = teams != 0 ? teams : before.teams != 0 ? before.teams : 3,
    };
    (void)flags;
    if (limit == 0)
        limit = before.teams_limit;
    if (limit != 0)
        settings->limit = limit;
    struct team *outer = task->team;
    task->team = &team;
    for (; team.team_number < team.teams; team.team_number += 1)
        function(data);
    task->team = outer;
    settings->limit = before.limit;
}
