/* What a call costs: it is made TURNS times, after some that bring all lines to where they are used.
   WHAT is one of the functions below. */
#include "shasta_short.h"

#ifndef TURNS
#define TURNS 20
#endif

enum { FIRST = 4 };

static struct barrier barrier;
static struct lock lock;
static struct {
    unsigned word IN_OWN_LINE;
} guarded;

static void nothing(void *unused)
{
    (void)unused;
}

static void meets(void *turns)
{
    for (unsigned k = 0; k < *(unsigned *)turns; k += 1)
        meet(&barrier, processors());
}

/* All want the lock all the time, and write a word under it. */
static void wants(void *turns)
{
    for (unsigned k = 0; k < *(unsigned *)turns; k += 1) {
        enter(&lock);
        guarded.word += 1;
        leave(&lock);
    }
}

/* One takes the lock, then another one. */
static void takes(void *turns)
{
    for (unsigned k = 0; k < *(unsigned *)turns; k += 1) {
        meet(&barrier, processors());
        if (processor() == k % processors()) {
            enter(&lock);
            leave(&lock);
        }
    }
}

static void turns_of(void (*function)(void *), unsigned turns)
{
#ifdef CALLS
    for (unsigned k = 0; k < turns; k += 1)
        parallel(function, &turns);
#else
    parallel(function, &turns);
#endif
}

int main(void)
{
    (void)nothing, (void)meets, (void)wants, (void)takes;
    turns_of(WHAT, FIRST);
    turns_of(WHAT, TURNS);
    return 0;
}
