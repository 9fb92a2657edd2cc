/* What processors say to each other while they wait: words with one writer and one reader, each in a
   line of its own, in the page of the one that is best its home. */
#ifndef HOME_H
#define HOME_H

#include "own.h"

#include <stdint.h>

enum { DOUBLINGS = 4, PAGE_BYTES = 4096 };

_Static_assert(1 << DOUBLINGS == MOST_PROCESSORS, "a doubling for each bit of a number");

/* Work that is handed down the tree: a function for the first so many processors, and words for who
   hands it on. */
struct work {
    void (*function)(const struct work *work);
    unsigned processors;
    uintptr_t words[8];
};

/* Where a processor hands work to another one, which it has called so often. */
struct seat {
    unsigned calls SHASTA_IN_OWN_LINE;
    struct work work;
};

/* A barrier of all processors, each of which calls `rest` in each turn of a wait. */
void __shasta_meet_all(void (*rest)(void));

/* Lets processors do work, of which this is the first. */
void __shasta_hand_down(const struct work *work);

/* What a processor looks at in each turn of a wait. */
enum {
    CALLED_END = 1,          /* the program ends */
    CALLED_NEWCOMERS = 2,    /* threads come */
    CALLED_RING = 4          /* it has more than one thread: said by itself */
};

/* The page of a processor, whose home is its node where each processor is on a node of its own. */
struct home {
    unsigned called SHASTA_IN_OWN_LINE;
    struct {
        unsigned told;
        unsigned root;
        int code;
    } end;
    struct thread *newcomers;
    struct {
        unsigned episode SHASTA_IN_OWN_LINE;
    } arrived[DOUBLINGS];    /* it says here that it has come to a barrier */
    struct seat seats[DOUBLINGS]; /* hands work on here */
    unsigned done SHASTA_IN_OWN_LINE; /* and has done so often what it was called for */
    struct places places;
} __attribute__((aligned(PAGE_BYTES)));

_Static_assert(sizeof(struct home) == PAGE_BYTES, "pages in a row have the nodes as homes in turn");

extern struct home __shasta_homes[MOST_PROCESSORS];

/* The page of a processor: page p of the memory has node p modulo the number of nodes as its
   home. */
static inline struct home *home_of(unsigned processor)
{
    return &__shasta_homes[(processor + own.skew) % own.count];
}

#endif
