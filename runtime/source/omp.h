/* OpenMP, by the calls that GCC makes. */
#ifndef SHASTA_OMP_H
#define SHASTA_OMP_H

#include "thread.h"

#include <limits.h>
#include <stdint.h>

typedef unsigned long long wide;

enum { SHARES = 16 };

/* What the environment, or a call, sets; a task has its parent's until it sets one. */
struct settings {
    unsigned threads;        /* of a region that doesn't say how many */
    unsigned limit;          /* of threads in all */
    unsigned most_levels;    /* of active regions, one in another */
    unsigned schedule;
    unsigned chunk;
    unsigned teams;
    unsigned teams_limit;
    bool is_dynamic;
    uintptr_t allocator;     /* of <omp.h>, where nothing is said; 0 is the usual one */
};

enum { STATIC = 1, DYNAMIC, GUIDED, AUTO, ORDERED = 0x100, MONOTONIC = (int)0x80000000u };

/* A work share: a loop, sections or a scope that the threads of a team do together. Each thread counts
   those that it has come to; that with number k stands in place k modulo SHARES, and place and line are
   used again when all have left the one before. */
struct share {
    struct shasta_lock lock; /* while it is begun, and for counts of more than 32 bits */
    unsigned number SHASTA_IN_OWN_LINE;
    unsigned kind;           /* STATIC, DYNAMIC or GUIDED, and ORDERED */
    wide count;              /* of its iterations */
    wide chunk;
    wide start;              /* of its counter, with */
    wide end;
    wide step;
    uintptr_t *reductions;
    void *memory;            /* of the team, until it is over */
    struct doacross *doacross;
    wide next SHASTA_IN_OWN_LINE; /* the first iteration that nobody has taken */
    unsigned chunks;         /* taken so far, where it is ordered */
    unsigned turn SHASTA_IN_OWN_LINE; /* the chunk that may do what is ordered */
    unsigned left;           /* how many threads have left it */
};

/* A group of tasks, for which one waits. */
struct group {
    struct group *outer;
    unsigned unfinished SHASTA_IN_OWN_LINE;
    uintptr_t *reductions;
};

/* Tasks that wait for a thread, by the thread that made them. */
struct queue {
    struct shasta_lock lock;
    struct task *oldest SHASTA_IN_OWN_LINE;
    struct task *newest;
};

struct team {
    unsigned size;
    bool has_processors;     /* thread k of all runs on processor k, and there are no others */
    unsigned level;          /* of regions, one in another */
    unsigned active_level;
    unsigned teams;          /* of a `teams` construct, and which one it is in */
    unsigned team_number;
    struct task *parent;     /* which came to the region */
    struct queue *queues;    /* one for each thread */
    unsigned queue_count;
    unsigned last_share;     /* the numbers of the last share and the last single so far, as thread 0 */
    unsigned last_single;    /* leaves them */
    unsigned unfinished SHASTA_IN_OWN_LINE; /* tasks */
    unsigned single SHASTA_IN_OWN_LINE; /* the last one that somebody does */
    void *copied SHASTA_IN_OWN_LINE; /* by copyprivate, in the single with this number */
    unsigned copied_by;
    unsigned left SHASTA_IN_OWN_LINE; /* threads that have left the region */
    struct shasta_barrier barrier;
    struct share shares[SHARES];
};

/* What a thread does: its part of a region, or a task of its own. */
struct task {
    struct task *parent;
    struct team *team;       /* 0 outside of all regions */
    unsigned number;         /* of the thread in its team */
    const struct settings *settings;
    struct settings *own_settings;
    unsigned shares;         /* how many shares and singles it has come to */
    unsigned singles;
    struct share *share;     /* in which it is */
    unsigned trip;           /* chunks of a static schedule that it has done, and */
    unsigned chunk;          /* which chunk it is at, where it is ordered */
    bool has_chunk;
    bool is_final;
    bool is_explicit;
    struct group *group;
    unsigned children SHASTA_IN_OWN_LINE; /* not finished yet */
    struct dependences *dependences; /* of its children */
    /* Of a task of its own: */
    void (*function)(void *);
    void *data;
    struct task *older;      /* in its queue */
    struct task *newer;
    unsigned uses;           /* words that lead to it */
    unsigned waits_for;      /* tasks before it, which aren't finished */
    struct followers *followers;
    bool is_finished;
    unsigned detached;       /* what is still to come before it is finished: its function, its event */
};

/* What holds at the start. */
struct settings __shasta_first_settings(void);

/* The task that runs. */
struct task *__shasta_task(void);

/* Runs a function with a task as the one that runs. */
void __shasta_run_as(struct task *task, void (*function)(void *), void *data);

/* Where the settings of a task may be changed. */
struct settings *__shasta_own_settings(struct task *task);

/* How many threads a region has that asks for so many. */
unsigned __shasta_team_size(unsigned asked);

/* Runs a region. `first` begins its first share, where it has one that is begun with it. */
void __shasta_region(void (*function)(void *), void *data, unsigned asked,
                     void (*first)(struct share *share, const void *what), const void *what,
                     uintptr_t *reductions);

/* A barrier of a team, before which all its tasks are finished. */
void __shasta_team_barrier(struct task *task);

/* Comes to the next share; `begin` begins it, where this thread is the first. */
struct share *__shasta_come_to_share(struct task *task,
                                     void (*begin)(struct share *share, const void *what),
                                     const void *what);
void __shasta_leave_share(struct task *task);

/* Tasks: does one that waits, if there is one that may be done by who waits for all, for its children,
   or for a group; else rests. */
enum wait { ALL, CHILDREN, GROUP };
void __shasta_do_task_or_rest(struct task *task, enum wait wait, struct group *group);
void __shasta_wait_for_children(struct task *task);
void __shasta_begin_group(struct task *task, struct group *group);
void __shasta_end_group(struct task *task);

/* Task reductions of a group; `of` has the memory where another thread has made it, else 0. */
void __shasta_register_reductions(struct group *group, uintptr_t *reductions, const uintptr_t *of,
                                  unsigned threads);
void __shasta_free_reductions(uintptr_t *reductions);
void __shasta_share_reductions(struct task *task, struct share *share, uintptr_t *reductions);

/* What becomes ready when a task is finished, and what it has to wait for. */
void __shasta_add_dependences(struct task *task, void **depend);
void __shasta_wait_for_dependences(struct task *parent, void **depend);
void __shasta_finish_dependences(struct task *task);
void __shasta_drop_dependences(struct task *task);
void __shasta_queue(struct task *task);
void __shasta_release(struct task *task);

#endif
