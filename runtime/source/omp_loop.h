/* Loops. Each is counted from 0: iteration k of a loop stands for its start and k steps. */
#ifndef OMP_LOOP_H
#define OMP_LOOP_H

#include "omp.h"

/* What a loop is to be. */
struct loop {
    wide start;
    wide end;
    wide step;
    wide count;
    wide chunk;
    unsigned kind;           /* STATIC to AUTO, or 0: as the settings say; and ORDERED */
    unsigned dimensions;     /* of a loop with ordered(n), else 0 */
    const wide *sizes;
    uintptr_t *reductions;
    size_t memory;           /* of the team */
};

/* Iterations that a thread takes: `first`, and so many from it on. */
struct part {
    wide first;
    wide count;
};

/* Comes to a loop. Where *memory is a number of bytes it becomes memory of the team. */
void __shasta_start_loop(const struct loop *loop, void **memory);

void __shasta_begin_loop(struct share *share, const void *loop);
bool __shasta_take_part(struct task *task, struct part *part);

/* Lets the one that has the next chunk do what is ordered. */
void __shasta_pass_turn(struct task *task);

struct doacross *__shasta_new_doacross(unsigned dimensions, const wide *sizes);
void __shasta_free_doacross(struct doacross *doacross);

#endif
