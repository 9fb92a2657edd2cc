/* What water.c and water_openmp.c share: the molecules, their forces, and how they move. All numbers
   are whole, so every order of the sums gives the same. */
#ifndef WATER_H
#define WATER_H

#include "kernel.h"

#ifndef SIZE
#define SIZE 64
#endif
enum { STEPS = 2, SIDE = 4096, HALF = SIZE / 2 };

struct molecule {
    int at[3];
    int charge;
};

struct force {
    int along[3];
    int unused;
};

static struct molecule molecules[SIZE] __attribute__((aligned(4096)));
static struct molecule alone[SIZE] __attribute__((aligned(4096)));

/* Where a molecule stands at the start. */
static void place(unsigned one)
{
    unsigned seed = next_of(next_of(one));
    for (unsigned axis = 0; axis < 3; axis += 1) {
        seed = next_of(seed);
        molecules[one].at[axis] = (int)(seed >> 16) & (SIDE - 1);
    }
    molecules[one].charge = 1 + one % 3;
    alone[one] = molecules[one];
}

/* The force by which a molecule is driven away from another, in registers. */
static inline struct force force_of(struct molecule one, struct molecule other)
{
    int x = one.at[0] - other.at[0], y = one.at[1] - other.at[1], z = one.at[2] - other.at[2];
    int square = 1 + x * x / 64 + y * y / 64 + z * z / 64;
    int strength = 8192 * one.charge * other.charge;
    return (struct force){{x * strength / square, y * strength / square, z * strength / square}, 0};
}

static void add(struct force *sum, struct force force)
{
    for (unsigned axis = 0; axis < 3; axis += 1)
        sum->along[axis] += force.along[axis];
}

static void subtract(struct force *sum, struct force force)
{
    for (unsigned axis = 0; axis < 3; axis += 1)
        sum->along[axis] -= force.along[axis];
}

static void move(struct molecule *molecule, struct force *speed, struct force force)
{
    for (unsigned axis = 0; axis < 3; axis += 1) {
        speed->along[axis] += force.along[axis] / 16;
        molecule->at[axis] = (molecule->at[axis] + speed->along[axis] / 64) & (SIDE - 1);
    }
}

static void clear(struct force found[SIZE])
{
    for (unsigned one = 0; one < SIZE; one += 1)
        found[one] = (struct force){{0}, 0};
}

/* Finds the forces of the pairs that begin with a molecule: with each of those half around. */
static inline void find_pairs(unsigned one, struct force found[SIZE])
{
    struct molecule own = molecules[one];
    struct force sum = {{0}, 0};
    unsigned last = HALF - (one >= HALF);
    for (unsigned far = 1; far <= last; far += 1) {
        unsigned other = one + far < SIZE ? one + far : one + far - SIZE;
        struct force force = force_of(own, molecules[other]);
        add(&sum, force);
        subtract(&found[other], force);
    }
    add(&found[one], sum);
}

/* All forces on a molecule, for the check. */
static inline struct force all_forces(unsigned one)
{
    struct force sum = {{0}, 0};
    for (unsigned other = 0; other < SIZE; other += 1)
        if (other != one)
            add(&sum, force_of(alone[one], alone[other]));
    return sum;
}

/* How much of a molecule is wrong at the end; adds it to the sum of the result. */
static unsigned check(unsigned one, unsigned *sum)
{
    unsigned wrong = 0;
    for (unsigned axis = 0; axis < 3; axis += 1) {
        wrong += molecules[one].at[axis] != alone[one].at[axis];
        *sum += at_place(3 * one + axis, (unsigned)molecules[one].at[axis]);
    }
    return wrong;
}

#endif
