/* What a program finds on shasta: processors that share memory, locks, barriers, and work that
   processor 0 hands to all. What each call costs is said in messages between nodes, where each
   processor is on a node of its own. All names here begin with `shasta_`; shasta_short.h has short
   ones for the same things.

   A block that the node hasn't is a miss: 4 messages at most to read it, 2 n + 1 at most to write
   it, n being the number of nodes. What a node has it accesses without a message. */
#ifndef SHASTA_H
#define SHASTA_H

#include <stddef.h>
#include <stdlib.h>

#include "shasta_queue.h"

#ifdef __cplusplus
extern "C" {
#endif

/* A line of shared memory is 64 bytes, and nodes fetch whole lines: what two processors write to at
   the same time belongs into lines of its own. */
#define SHASTA_LINE 64
#define SHASTA_IN_OWN_LINE __attribute__((aligned(SHASTA_LINE)))

extern const unsigned __shasta_own[];

/* The number of this processor, from 0 on. No message: it lies in the processor's own memory. */
static inline unsigned shasta_processor(void)
{
    return __shasta_own[0];
}

/* How many processors there are. No message. */
static inline unsigned shasta_processors(void)
{
    return __shasta_own[1];
}

/* Calls the function with the argument on each processor, this one among them, and comes back
   when all have come back. Only processor 0 calls it, and not while threads run. What the
   argument points to has to lie in shared memory, as main's own variables do in a program that
   calls this. Each processor hands it on to others, so for each doubling of their number there is a
   write miss and a read miss until all have begun, and the same at the end. */
void shasta_parallel(void (*function)(void *), void *argument);

/* Adds to a word and gives what it was before. A write miss where another node had the line
   last. */
static inline unsigned shasta_fetch_and_add(unsigned *word, unsigned more)
{
    return __atomic_fetch_add(word, more, __ATOMIC_ACQ_REL);
}

/* Rests for a turn of a loop that waits: sixteen polls, at which messages of other nodes are taken.
   Without it a node of several processors may wait long for a message. In a program with threads it
   lets the other threads of its processor run. No message. */
void shasta_rest(void);

/* A lock, in a line of its own; all zeros it is free. Processors enter in the order in which they
   came, and each may hold any number of locks. Who has entered leaves. */
struct shasta_lock {
    struct shasta_queue queue;
} SHASTA_IN_OWN_LINE;

void __shasta_queue_enter(struct shasta_queue *queue);
int __shasta_queue_try(struct shasta_queue *queue);
void __shasta_queue_leave(struct shasta_queue *queue);

/* Waits until it is this processor's turn. A write miss where another node had the lock last, none
   where this one had; while others are before it, another write miss, and a read miss when the one
   before it leaves: each waits at a line of its own. */
static inline void shasta_enter(struct shasta_lock *lock)
{
    __shasta_queue_enter(&lock->queue);
}

/* Enters where the lock is free, and says whether it did. A write miss. */
static inline int shasta_try_enter(struct shasta_lock *lock)
{
    return __shasta_queue_try(&lock->queue);
}

/* Lets the next one in. No message where nobody came meanwhile, else a read miss and a write
   miss. */
static inline void shasta_leave(struct shasta_lock *lock)
{
    __shasta_queue_leave(&lock->queue);
}

/* A barrier; all zeros nobody has come. Its two words lie in lines of their own, so that those who
   wait aren't disturbed by those who come. */
struct shasta_barrier {
    unsigned arrived SHASTA_IN_OWN_LINE;
    unsigned round SHASTA_IN_OWN_LINE;
};

/* Waits until so many processors have come. Where all meet in a function of shasta_parallel, each
   has a write miss and a read miss for each doubling of their number: 1 on 2 processors, 4 on 16,
   which all have at the same time. Where fewer meet, or threads, each costs a write miss to come,
   and a read miss to see that all have come; the last one another write miss. */
void shasta_meet(struct shasta_barrier *barrier, unsigned count);

/* Marks that a phase of the program begins, from 1 to 2047, until the next mark: the word
   `slti x0, x0, NUMBER`, which does nothing. Only marks of processor 0 count. No message. */
#define shasta_phase(number) __asm__ volatile("slti x0, x0, %0" : : "i"(number) : "memory")

/* Memory of whole lines, which no other block shares; 0 where there is no room. As malloc it
   takes it from the processor's own heap: no message but for a new page, which is a write miss
   at the heap's lock. Give it back by free. */
static inline void *shasta_allocate_lines(size_t bytes)
{
    return aligned_alloc(SHASTA_LINE, bytes);
}

#ifdef __cplusplus
}
#endif

#endif
