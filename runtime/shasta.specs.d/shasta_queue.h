/* What locks and conditions are made of; shasta.h, threads.h and pthread.h say what is done with
   them. */
#ifndef SHASTA_QUEUE_H
#define SHASTA_QUEUE_H

/* Who waits for a lock, in the order in which they came; all zeros nobody has it. */
struct shasta_place;

struct shasta_queue {
    struct shasta_place *last;
    struct shasta_place *next;
};

/* Who waits for a condition: each takes a ticket, and tickets are served in their order. Who waits for
   some time only has none, and looks whether anything was signalled. */
struct shasta_tickets {
    unsigned taken;
    unsigned served;
    unsigned timed;
    unsigned signals;
};

#endif
