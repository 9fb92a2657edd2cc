/* Threads, many to a processor. Those of a processor stand in a ring and take turns: each wait of the
   runtime goes on with the next one. None is interrupted, and none goes to another processor. */
#ifndef THREAD_H
#define THREAD_H

#include "home.h"

#include <stdbool.h>

enum { DETACHED = 1, OVER = 2 };

/* What no other word of memory is likely to be. */
#define IS_LIVE 0x7ead11feu

/* What a thread is called for. */
typedef void *(*thread_function)(void *);

/* A thread stands at the end of its memory; below it come its thread-local data, and its stack, of
   which the lowest line is never used. */
struct thread {
    struct places places;    /* where it waits for locks */
    unsigned flags SHASTA_IN_OWN_LINE;
    unsigned is_live;        /* whether it may be joined, as a word that no other memory has */
    void *result;
    struct thread *next SHASTA_IN_OWN_LINE; /* in its ring, or of those who come or are free */
    void *stack;             /* the stack pointer, while another one of the ring runs */
    void *lowest;            /* the lowest line of the stack, 0 where it isn't one of these stacks */
    unsigned processor;
    bool in_parallel;
    bool in_ring;
    thread_function function;
    void *argument;
};

/* The thread that runs here. */
struct thread *__shasta_self(void);

/* Memory for a thread with a stack of so many bytes, 0 where there is none; and back. */
struct thread *__shasta_take_stack(size_t bytes);
void __shasta_give_stack(struct thread *thread);

/* Marks the lowest line of a stack, and ends the program where the mark isn't there any more. */
void __shasta_mark_stack(const struct thread *thread);
void __shasta_check_stack(const struct thread *thread);

/* Lets a thread that stands in no ring go on in that of its processor. */
void __shasta_wake(struct thread *thread);

/* Takes the thread that runs out of the ring, until it is woken. */
void __shasta_sleep(void);

/* Makes a thread on the processor that has the fewest, or on the one that is named, with a stack of so
   many bytes, which is then to be woken; 0 where there is no memory. */
enum { ANY_PROCESSOR = MOST_PROCESSORS };
struct thread *__shasta_make_thread(thread_function function, void *argument, size_t stack_bytes,
                                    unsigned flags, unsigned processor);

/* How many bytes a stack has where nothing is said. */
extern const char __shasta_thread_stack_size[];
#define DEFAULT_STACK ((size_t)__shasta_thread_stack_size)

/* Waits until a thread is over, and says what it gave; or an error of <errno.h>. */
int __shasta_join_thread(struct thread *thread, void **result);
int __shasta_detach_thread(struct thread *thread);

/* Gives back the stack of one that is over, where nobody will join it. */
void __shasta_bury(void);

/* Says that the thread won't do its processor's part of shasta_parallel any more. */
void __shasta_leave_work(struct thread *thread);

/* Ends the thread that runs. Of the first one: waits until all others are over, and ends the
   program. */
_Noreturn void __shasta_end_thread(void *result);

#endif
