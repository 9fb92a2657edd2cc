/* The calls of <omp.h> about threads, teams and settings. */
#include "clock.h"
#include "omp.h"

#include "../shasta.specs.d/omp.h"

static const struct team *team_here(void)
{
    return __shasta_task()->team;
}

int omp_get_num_threads(void)
{
    return team_here() != 0 ? (int)team_here()->size : 1;
}

int omp_get_thread_num(void)
{
    return (int)__shasta_task()->number;
}

int omp_get_max_threads(void)
{
    return (int)__shasta_task()->settings->threads;
}

void omp_set_num_threads(int count)
{
    __shasta_own_settings(__shasta_task())->threads = count > 0 ? (unsigned)count : 1;
}

int omp_get_num_procs(void)
{
    return (int)own.count;
}

int omp_in_parallel(void)
{
    return team_here() != 0 && team_here()->active_level > 0;
}

int omp_get_level(void)
{
    return team_here() != 0 ? (int)team_here()->level : 0;
}

int omp_get_active_level(void)
{
    return team_here() != 0 ? (int)team_here()->active_level : 0;
}

/* The part of a region, of which the task that runs is at last a child, at a level; 0 where there is
   none. */
static const struct task *ancestor(int level)
{
    const struct task *task = __shasta_task();
    if (level < 0 || level > omp_get_level())
        return 0;
    for (int at = omp_get_level(); at > level; at -= 1)
        task = task->team->parent;
    return task;
}

int omp_get_ancestor_thread_num(int level)
{
    const struct task *task = ancestor(level);
    return task != 0 ? (int)task->number : -1;
}

int omp_get_team_size(int level)
{
    const struct task *task = ancestor(level);
    return task == 0 ? -1 : task->team != 0 ? (int)task->team->size : 1;
}

int omp_get_thread_limit(void)
{
    return (int)__shasta_task()->settings->limit;
}

void omp_set_dynamic(int is_so)
{
    __shasta_own_settings(__shasta_task())->is_dynamic = is_so != 0;
}

int omp_get_dynamic(void)
{
    return __shasta_task()->settings->is_dynamic;
}

enum { MOST_LEVELS = 255 };

void omp_set_nested(int is_so)
{
    struct settings *settings = __shasta_own_settings(__shasta_task());
    if (is_so)
        settings->most_levels = MOST_LEVELS;
    else if (settings->most_levels > 1)
        settings->most_levels = 1;
}

int omp_get_nested(void)
{
    unsigned levels = __shasta_task()->settings->most_levels;
    return levels > 1 && levels > (unsigned)omp_get_active_level();
}

void omp_set_max_active_levels(int levels)
{
    if (levels >= 0)
        __shasta_own_settings(__shasta_task())->most_levels =
            levels < MOST_LEVELS ? (unsigned)levels : MOST_LEVELS;
}

int omp_get_max_active_levels(void)
{
    return (int)__shasta_task()->settings->most_levels;
}

int omp_get_supported_active_levels(void)
{
    return MOST_LEVELS;
}

int omp_in_final(void)
{
    return __shasta_task()->is_final;
}

int omp_get_cancellation(void)
{
    return 0;
}

int omp_get_max_task_priority(void)
{
    return 0;
}

int omp_get_num_teams(void)
{
    return team_here() != 0 ? (int)team_here()->teams : 1;
}

int omp_get_team_num(void)
{
    return team_here() != 0 ? (int)team_here()->team_number : 0;
}

void omp_set_num_teams(int count)
{
    if (count >= 0)
        __shasta_own_settings(__shasta_task())->teams = (unsigned)count;
}

int omp_get_max_teams(void)
{
    return (int)__shasta_task()->settings->teams;
}

void omp_set_teams_thread_limit(int limit)
{
    if (limit >= 0)
        __shasta_own_settings(__shasta_task())->teams_limit = (unsigned)limit;
}

int omp_get_teams_thread_limit(void)
{
    return (int)__shasta_task()->settings->teams_limit;
}

void omp_set_schedule(omp_sched_t kind, int chunk)
{
    struct settings *settings = __shasta_own_settings(__shasta_task());
    unsigned plain = (unsigned)kind & ~(unsigned)MONOTONIC;
    if (plain < STATIC || plain > AUTO)
        return;
    settings->schedule = (unsigned)kind;
    if (plain == STATIC)
        settings->chunk = chunk > 0 ? (unsigned)chunk : 0;
    else if (plain != AUTO)
        settings->chunk = chunk > 0 ? (unsigned)chunk : 1;
}

void omp_get_schedule(omp_sched_t *kind, int *chunk)
{
    const struct settings *settings = __shasta_task()->settings;
    *kind = (omp_sched_t)settings->schedule;
    *chunk = (int)settings->chunk;
}

double omp_get_wtime(void)
{
    return (double)__shasta_time() / 1000;
}

double omp_get_wtick(void)
{
    return 0.001;
}
