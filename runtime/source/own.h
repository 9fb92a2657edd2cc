/* What the parts of the runtime share. Names of the runtime's own that the linker sees begin with
   `__shasta_`. */
#ifndef OWN_H
#define OWN_H

#include "shasta.h"

#include <stdbool.h>

enum { MOST_PROCESSORS = 16, LINE_BYTES = 200, BINS = 13, PLACES = 8, MOST_HELD = PLACES - 2 };

/* Where one waits for a lock. The one before it says in `granted` that it may go on, the one behind
   it says in `next` that it is there. */
struct shasta_place {
    struct shasta_place *next SHASTA_IN_OWN_LINE;
    unsigned granted SHASTA_IN_OWN_LINE;
};

/* The places of a processor, or of a thread, and for which lock each is taken; the last two are only
   for waiting. */
struct places {
    struct shasta_queue *held[PLACES] SHASTA_IN_OWN_LINE;
    struct shasta_place place[PLACES];
};

/* Free blocks of one size: given back, and never used yet. */
struct bin {
    void *returned;
    char *fresh;
    char *end;
};

/* At the start of a function by which a stack begins: so a debugger looks no further. */
#define NOBODY_CALLED_THIS __asm__ volatile(".cfi_undefined ra")

/* What each processor has for itself, at the top of its private window. */
struct own {
    unsigned number;
    unsigned count;
    unsigned skew;           /* the pages of home.h begin at that of this processor */
    unsigned episode;        /* how often all processors have met */
    bool in_parallel;        /* whether it runs a function of shasta_parallel */
    struct home *home;       /* its page of home.h */
    struct places *places;   /* where it waits for locks */
    struct thread *running;  /* 0 until another thread comes */
    struct thread *buried;   /* one that is over, whose stack isn't used any more */
    unsigned length;         /* how many bytes of a line of output are collected */
    char line[LINE_BYTES];
    char *long_line;         /* where a line of more bytes is, all of it */
    unsigned room;           /* how many bytes it has room for */
    struct bin bins[BINS];
};

extern struct own own __asm__("__shasta_own");

_Static_assert(sizeof(struct own) <= 1024, "below it shasta.ld lets the thread-local data begin");

/* Copies the image of the thread-local data to where this processor has it. */
void __shasta_thread_data_anew(void);

/* Writes what is collected of a line. */
void __shasta_flush(void);

/* Ends this processor. */
_Noreturn void __shasta_end(int code);

/* Says why the program can't go on, in a line, and ends it as abort does. */
_Noreturn void __shasta_fail(const char *why);

/* Finds the page of this processor. */
void __shasta_find_home(void);

/* Sixteen polls, at which messages of other nodes are taken: a branch that is never taken is one. */
static inline void polls(void)
{
    __asm__ volatile(".rept 16\n\tbne x0, x0, .\n\t.endr");
}

/* As shasta_enter, of a lock of the runtime's own: who has it doesn't rest, and who waits for it lets
   no other thread of its processor run. */
void __shasta_enter(struct shasta_lock *lock);

/* Gives up the places by which one holds locks that it hasn't left, and doesn't come back. */
void __shasta_give_up_places(struct places *places);

/* More memory at a multiple of so many bytes, of the arena that the link sets; 0 where there is
   none. */
void *__shasta_more(size_t bytes, size_t multiple);

/* What processors other than 0 do, what each does at a turn of a wait, and what the one that ends the
   program says to the others; absent where the program hands no work on. */
_Noreturn void __shasta_wait(void) __attribute__((weak));
void __shasta_turn(void) __attribute__((weak));
void __shasta_tell_end(int code) __attribute__((weak));

/* Does this processor's part of work by a thread; what lets the other threads of the processor run;
   and what is done at the end of a thread with what it has kept. Absent where there are no threads, or
   they keep nothing. */
struct work;
void __shasta_do_by_thread(const struct work *work) __attribute__((weak));
void __shasta_yield(unsigned called) __attribute__((weak));
void __shasta_drop_kept(void) __attribute__((weak));

#endif
