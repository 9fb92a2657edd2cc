/* Teams: the threads of a region. Where main comes to a region the processors are called down the tree
   of pool.c, and thread k of the team is always the same one of processor k modulo their number: so
   what is private to it stays from region to region. Any other region makes threads of its own. */
#include "omp.h"

#include <malloc.h>

static _Thread_local struct task first_task;
static _Thread_local struct task *current;

/* What a thread of main's team does in its regions. After each it is as it was: all zeros but for what
   the next one sets. */
static _Thread_local struct task part_task;

/* The team of main's regions, and the threads of it that aren't the first one of their processor. */
static struct team main_team;
static struct more {
    struct thread *thread SHASTA_IN_OWN_LINE;
    struct more *next;       /* of the same processor */
    unsigned number;
    const struct work *work;
    bool at_work;
} *more_threads[MOST_PROCESSORS]; /* the others of each */

static _Noreturn void fail(void)
{
    __shasta_fail("shasta: no memory for OpenMP: -Wl,--defsym=__heap_size=BYTES gives more\n");
}

static __attribute__((noinline)) struct task *begin_first_task(void)
{
    static struct settings settings;
    if (settings.threads == 0)
        settings = __shasta_first_settings();
    first_task.settings = &settings;
    current = &first_task;
    return current;
}

struct task *__shasta_task(void)
{
    return current != 0 ? current : begin_first_task();
}

void __shasta_run_as(struct task *task, void (*function)(void *), void *data)
{
    struct task *before = current;
    current = task;
    function(data);
    current = before;
}

struct settings *__shasta_own_settings(struct task *task)
{
    if (task->own_settings == 0) {
        task->own_settings = malloc(sizeof *task->own_settings);
        if (task->own_settings == 0)
            fail();
        *task->own_settings = *task->settings;
        task->settings = task->own_settings;
    }
    return task->own_settings;
}

static inline unsigned team_size(const struct task *task, unsigned asked)
{
    const struct settings *settings = task->settings;
    unsigned active = task->team != 0 ? task->team->active_level : 0;
    unsigned size = asked != 0 ? asked : settings->threads;
    if (active >= settings->most_levels)
        return 1;
    return size < settings->limit ? size : settings->limit;
}

unsigned __shasta_team_size(unsigned asked)
{
    return team_size(__shasta_task(), asked);
}

/* What all threads of a region have to know. It goes down the tree as words, so that they needn't read
   it from one line, one after the other. */
enum { FUNCTION, DATA, TEAM, SIZE, LAST_SHARE, LAST_SINGLE, REGION_GROUP, IS_IN_SHARE };

/* Readies the task by which a thread does its part of a region: it is all zeros but for what is set
   here. */
static inline void begin_part(struct task *task, struct team *team, unsigned number,
                              struct group *group)
{
    struct task *parent = team->parent;
    if (task->parent != parent || task->team != team) {
        task->parent = parent;
        task->team = team;
        task->number = number;
    }
    task->settings = parent->settings;
    task->group = group;
}

/* The same of a share that is begun with the region. */
static inline void begin_in_share(struct task *task)
{
    task->shares += 1;
    task->share = &task->team->shares[task->shares % SHARES];
    task->trip = 0;
    task->has_chunk = false;
}

/* Does the part, all of the team's tasks included. Thread 0 writes what has changed alone: all threads
   have read the line. */
static void do_part(struct task *task, void (*function)(void *), void *data)
{
    struct team *team = task->team;
    struct task *before = current;
    current = task;
    function(data);
    current = before;
    while (__atomic_load_n(&team->unfinished, __ATOMIC_ACQUIRE) != 0)
        __shasta_do_task_or_rest(task, ALL, 0);
    if (task->dependences != 0)
        __shasta_drop_dependences(task);
    if (task->own_settings != 0) {
        free(task->own_settings);
        task->own_settings = 0;
    }
    if (task->number != 0)
        return;
    if (team->last_share != task->shares)
        team->last_share = task->shares;
    if (team->last_single != task->singles)
        team->last_single = task->singles;
}

static void do_part_of(const struct work *work, unsigned number, struct task *task)
{
    const uintptr_t *words = work->words;
    begin_part(task, (struct team *)words[TEAM], number, (struct group *)words[REGION_GROUP]);
    task->shares = words[LAST_SHARE];
    task->singles = words[LAST_SINGLE];
    if (words[IS_IN_SHARE])
        begin_in_share(task);
    do_part(task, (void (*)(void *))words[FUNCTION], (void *)words[DATA]);
}

static void have_queues(struct team *team, unsigned count)
{
    if (team->queue_count >= count)
        return;
    struct queue *queues = memalign(SHASTA_LINE, count * sizeof *queues);
    if (queues == 0)
        fail();
    for (unsigned k = 0; k < count; k += 1)
        queues[k] = (struct queue){.oldest = 0};
    free(team->queues);
    team->queues = queues;
    team->queue_count = count;
}

/* Threads of main's team that aren't the first one of their processor. */
static _Noreturn void *go_on(void *given)
{
    struct more *more = given;
    for (;;) {
        do_part_of(more->work, more->number, &part_task);
        __shasta_flush();
        more->at_work = false;
        __shasta_sleep();
    }
}

/* Lets thread `number`, which *at is to be, do its part. */
static void call_more(struct more **at, unsigned number, const struct work *work)
{
    struct more *more = *at;
    if (more == 0) {
        more = memalign(SHASTA_LINE, sizeof *more);
        if (more == 0)
            fail();
        *more = (struct more){.number = number};
        more->thread =
            __shasta_make_thread(go_on, more, DEFAULT_STACK, DETACHED, own.number);
        if (more->thread == 0)
            fail();
        *at = more;
    }
    more->work = work;
    more->at_work = true;
    __shasta_wake(more->thread);
}

/* The part of a processor: of thread p, and of those whose numbers are p and a multiple of the number of
   processors. */
static void do_parts(const struct work *work)
{
    struct more **at = &more_threads[own.number];
    for (unsigned k = own.number + own.count; k < work->words[SIZE]; k += own.count) {
        call_more(at, k, work);
        at = &(*at)->next;
    }
    do_part_of(work, own.number, &part_task);
    struct more *more = more_threads[own.number];
    for (unsigned k = own.number + own.count; k < work->words[SIZE]; k += own.count) {
        while (more->at_work)
            shasta_rest();
        more = more->next;
    }
}

/* A thread of another team. */
struct member {
    struct work *work;
    unsigned number;
};

static void *be_member(void *given)
{
    struct member member = *(struct member *)given;
    struct team *team = (struct team *)member.work->words[TEAM];
    free(given);
    do_part_of(member.work, member.number, &part_task);
    __atomic_fetch_add(&team->left, 1, __ATOMIC_RELEASE);
    return 0;
}

static void do_with_members(struct work *work, unsigned size)
{
    struct team *team = (struct team *)work->words[TEAM];
    struct task task = {.parent = 0};
    team->left = 1;
    for (unsigned k = 1; k < size; k += 1) {
        struct member *member = malloc(sizeof *member);
        if (member == 0)
            fail();
        *member = (struct member){work, k};
        struct thread *thread =
            __shasta_make_thread(be_member, member, DEFAULT_STACK, DETACHED, ANY_PROCESSOR);
        if (thread == 0)
            fail();
        __shasta_wake(thread);
    }
    do_part_of(work, 0, &task);
    while (__atomic_load_n(&team->left, __ATOMIC_ACQUIRE) != size)
        shasta_rest();
}

/* Writes what has changed alone, so that those who have read it needn't read it again. */
static void describe(struct team *team, struct task *parent, unsigned size)
{
    const struct team *outer = parent->team;
    unsigned active = (outer != 0 ? outer->active_level : 0) + (size > 1);
    unsigned teams = outer != 0 ? outer->teams : 1;
    unsigned team_number = outer != 0 ? outer->team_number : 0;
    if (team->size == size && team->parent == parent && team->active_level == active &&
        team->teams == teams && team->team_number == team_number)
        return;
    team->has_processors = team == &main_team && size == own.count;
    team->size = size;
    team->parent = parent;
    team->level = (outer != 0 ? outer->level : 0) + 1;
    team->active_level = active;
    team->teams = teams;
    team->team_number = team_number;
    have_queues(team, size);
}

/* Whether main comes to a region, and to no other one inside of it. */
static bool is_main(const struct task *task)
{
    return own.number == 0 && own.places == &own.home->places && task == &first_task &&
           !own.in_parallel;
}

/* The region of main's team where it has main alone. */
static void do_alone(struct team *team, void (*function)(void *), void *data, struct group *group,
                     bool is_in_share)
{
    struct task *task = &part_task;
    begin_part(task, team, 0, group);
    task->shares = team->last_share;
    task->singles = team->last_single;
    if (is_in_share)
        begin_in_share(task);
    do_part(task, function, data);
}

/* The region of several threads. */
static void do_together(struct team *team, const uintptr_t words[])
{
    unsigned size = words[SIZE];
    struct work work = {do_parts, size < own.count ? size : own.count, {0}};
    for (unsigned k = 0; k <= IS_IN_SHARE; k += 1)
        work.words[k] = words[k];
    if (team == &main_team) {
        __shasta_hand_down(&work);
        return;
    }
    do_with_members(&work, size);
    free(team->queues);
    free(team);
}

static struct team *new_team(void)
{
    struct team *team = memalign(SHASTA_LINE, sizeof *team);
    if (team == 0)
        fail();
    *team = (struct team){.size = 0};
    return team;
}

void __shasta_region(void (*function)(void *), void *data, unsigned asked,
                     void (*first)(struct share *share, const void *what), const void *what,
                     uintptr_t *reductions)
{
    struct task *task = __shasta_task();
    unsigned size = team_size(task, asked);
    struct team *team = is_main(task) ? &main_team : new_team();
    struct group in_group, *group = 0;
    describe(team, task, size);
    if (reductions != 0) {
        group = &in_group;
        *group = (struct group){.reductions = 0};
        __shasta_register_reductions(group, reductions, 0, size);
    }
    if (first != 0) {
        struct share *share = &team->shares[(team->last_share + 1) % SHARES];
        share->left = 0;
        first(share, what);
        share->number = team->last_share + 1;
    }
    if (team == &main_team && size == 1) {
        do_alone(team, function, data, group, first != 0);
        return;
    }
    do_together(team, (uintptr_t[]){(uintptr_t)function, (uintptr_t)data, (uintptr_t)team, size,
                                    team->last_share, team->last_single, (uintptr_t)group,
                                    first != 0});
}
