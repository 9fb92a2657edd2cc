/* shasta.h by short names, for a program that has no such names of its own. */
#ifndef SHASTA_SHORT_H
#define SHASTA_SHORT_H

#include "shasta.h"

#define LINE SHASTA_LINE
#define IN_OWN_LINE SHASTA_IN_OWN_LINE
#define phase(number) shasta_phase(number)

#ifdef __cplusplus
extern "C" {
#endif

static inline unsigned processor(void)
{
    return shasta_processor();
}

static inline unsigned processors(void)
{
    return shasta_processors();
}

static inline void parallel(void (*function)(void *), void *argument)
{
    shasta_parallel(function, argument);
}

static inline unsigned fetch_and_add(unsigned *word, unsigned more)
{
    return shasta_fetch_and_add(word, more);
}

static inline void rest(void)
{
    shasta_rest();
}

struct lock {
    struct shasta_lock shasta;
};

static inline void enter(struct lock *lock)
{
    shasta_enter(&lock->shasta);
}

static inline int try_enter(struct lock *lock)
{
    return shasta_try_enter(&lock->shasta);
}

static inline void leave(struct lock *lock)
{
    shasta_leave(&lock->shasta);
}

struct barrier {
    struct shasta_barrier shasta;
};

static inline void meet(struct barrier *barrier, unsigned count)
{
    shasta_meet(&barrier->shasta, count);
}

static inline void *allocate_lines(size_t bytes)
{
    return shasta_allocate_lines(bytes);
}

#ifdef __cplusplus
}
#endif

#endif
