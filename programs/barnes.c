/* Barnes and Hut: bodies in the plane attract each other, by a tree. A square that has more than
   one body is divided into four, until each body is alone; what is far away attracts by its centre
   of mass, as one. All processors put their bodies into the tree, find the masses of its squares
   and the forces on their bodies, and move these. The bodies stand in the order of a curve that
   goes through all quarters (Morton's), so those of a processor are near each other, and a
   processor has as many as cost it no more than the others: by what each body cost in the step
   before. What a body reads of the tree, and in which order, is the same for every number of
   processors, so the floats are too. In the end some forces are compared with those of all bodies,
   one by one.

   Layout: a body's place and mass are read by all and written by the processor that moves it, where
   it is at home. While the tree is made, processors write into each other's squares; then all read
   it. Blocks of 128 bring four squares by one request. */
#include "kernel.h"

#ifndef SIZE
#define SIZE 64
#endif
enum { CELLS = 4 * SIZE, STEPS = 2, BITS = 16, ROOT = 1, CHECKED = 8 };

/* A mass, and where its centre is. */
struct weight {
    float mass;
    float at[2];
};

struct body {
    struct weight weight;
    float speed[2];
    unsigned place[2];       /* below 1 << BITS */
    unsigned cost;           /* how many masses attracted it in the step before */
};

/* A square. What lies in each quarter is 0 for nothing, a square's number, or the complement of a
   body's number. */
struct cell {
    struct weight weight;
    int quarters[4];
    unsigned unused;
};

static struct body bodies[SIZE] __attribute__((aligned(4096)));
static struct cell cells[MOST][CELLS] __attribute__((aligned(4096)));
static struct {
    unsigned cells IN_OWN_LINE;
} made[MOST];
static struct barrier barrier;
static unsigned lost IN_OWN_LINE;

/* The bodies of a processor. */
struct part {
    unsigned from;
    unsigned to;
};

static struct cell *cell_of(int number)
{
    return &cells[(number - ROOT) / CELLS][(number - ROOT) % CELLS];
}

static struct weight *weight_of(int number)
{
    return number < 0 ? &bodies[~number].weight : &cell_of(number)->weight;
}

/* The quarter of a square in which a body lies, by this bit of its place. */
static int *slot_of(int cell, int body, int bit)
{
    const unsigned *place = bodies[~body].place;
    return &cell_of(cell)->quarters[(place[0] >> bit & 1) + 2 * (place[1] >> bit & 1)];
}

/* A new square with a body in it; 0 where this processor has no more. */
static int new_cell(int body, int bit)
{
    unsigned used = made[processor()].cells;
    if (used == CELLS)
        return 0;
    int number = ROOT + (int)(processor() * CELLS + used);
    made[processor()].cells = used + 1;
    *cell_of(number) = (struct cell){.unused = 0};
    *slot_of(number, body, bit) = body;
    return number;
}

/* A tree of the root alone, which is processor 0's first square. */
static void begin_tree(void)
{
    made[processor()].cells = processor() == 0;
    if (processor() == 0)
        *cell_of(ROOT) = (struct cell){.unused = 0};
}

/* Puts a body into the tree, and says whether that could be. Others do so too: a quarter is changed
   only as long as it is what it was seen to be, and one that has a square keeps it. */
static int insert(int body)
{
    int cell = ROOT;
    for (int bit = BITS - 1; bit > 0; bit -= 1) {
        int *slot = slot_of(cell, body, bit);
        int found = __atomic_load_n(slot, __ATOMIC_ACQUIRE);
        if (found == 0 && __atomic_compare_exchange_n(slot, &found, body, 0, __ATOMIC_ACQ_REL,
                                                      __ATOMIC_ACQUIRE))
            return 1;
        if (found < 0) {
            int larger = new_cell(found, bit - 1);
            if (larger == 0)
                return 0;
            if (__atomic_compare_exchange_n(slot, &found, larger, 0, __ATOMIC_ACQ_REL,
                                            __ATOMIC_ACQUIRE))
                found = larger;
            else
                made[processor()].cells -= 1;
        }
        cell = found;
    }
    return 0;
}

/* The mass and the centre of a square, of those of its quarters. */
static void weigh(struct cell *cell)
{
    struct weight sum = {0};
    for (unsigned k = 0; k < 4; k += 1)
        if (cell->quarters[k] != 0) {
            const struct weight *weight = weight_of(cell->quarters[k]);
            sum.mass += weight->mass;
            for (unsigned axis = 0; axis < 2; axis += 1)
                sum.at[axis] += weight->mass * weight->at[axis];
        }
    if (sum.mass != 0)
        for (unsigned axis = 0; axis < 2; axis += 1)
            sum.at[axis] /= sum.mass;
    cell->weight = sum;
}

/* Weighs all squares in one, and then the square. */
static void weigh_all(int number)
{
    if (number <= 0)
        return;
    for (unsigned k = 0; k < 4; k += 1)
        weigh_all(cell_of(number)->quarters[k]);
    weigh(cell_of(number));
}

/* Weighs the tree: what lies in the root's quarters by all processors, then the rest by one. */
static void weigh_tree(void)
{
    for (unsigned k = processor(); k < 16; k += processors()) {
        int quarter = cell_of(ROOT)->quarters[k / 4];
        if (quarter > 0)
            weigh_all(cell_of(quarter)->quarters[k % 4]);
    }
    meet(&barrier, processors());
    if (processor() == 0) {
        for (unsigned k = 0; k < 4; k += 1)
            if (cell_of(ROOT)->quarters[k] > 0)
                weigh(cell_of(cell_of(ROOT)->quarters[k]));
        weigh(cell_of(ROOT));
    }
    meet(&barrier, processors());
}

/* Adds how a mass attracts a body; in the third place are the sizes of the two parts. */
static void add_pull(const struct body *body, const struct weight *weight, float pull[3])
{
    float way[2] = {weight->at[0] - body->weight.at[0], weight->at[1] - body->weight.at[1]};
    float factor = weight->mass / (way[0] * way[0] + way[1] * way[1] + 65536);
    for (unsigned axis = 0; axis < 2; axis += 1) {
        float part = way[axis] * factor;
        pull[axis] += part;
        pull[2] += part < 0 ? -part : part;
    }
}

/* Adds how a square or a body attracts a body; a square that is near for its side does so by its
   quarters. Gives how many masses there were. */
static unsigned add_tree(const struct body *body, int number, float side, float pull[3])
{
    const struct weight *weight = weight_of(number);
    float across = weight->at[0] - body->weight.at[0], down = weight->at[1] - body->weight.at[1];
    unsigned count = 0;
    if (number < 0 || 4 * side * side < across * across + down * down) {
        add_pull(body, weight, pull);
        return 1;
    }
    for (unsigned k = 0; k < 4; k += 1)
        if (cell_of(number)->quarters[k] != 0)
            count += add_tree(body, cell_of(number)->quarters[k], side / 2, pull);
    return count;
}

/* Whether the tree's force is that of all bodies, but for a part in 32. */
static int is_right(const struct body *body, const float pull[3])
{
    float all[3] = {0};
    for (unsigned k = 0; k < SIZE; k += 1)
        add_pull(body, &bodies[k].weight, all);
    for (unsigned axis = 0; axis < 2; axis += 1) {
        float error = all[axis] - pull[axis];
        if (32 * error > all[2] || -32 * error > all[2])
            return 0;
    }
    return 1;
}

static void put_at(struct body *body, unsigned axis, unsigned place)
{
    body->place[axis] = place;
    body->weight.at[axis] = (float)place;
}

static void move(struct body *body, const float pull[3])
{
    for (unsigned axis = 0; axis < 2; axis += 1) {
        body->speed[axis] += pull[axis] * 4096;
        float place = body->weight.at[axis] + body->speed[axis];
        put_at(body, axis, place < 0 ? 0 : place > 65535 ? 65535 : (unsigned)place);
    }
}

/* Makes bodies along the curve: each somewhere on a stretch of its own. */
static void fill(struct part part)
{
    enum { STRETCH = 0xffffffffu / SIZE };
    for (unsigned k = part.from; k < part.to; k += 1) {
        unsigned along = k * STRETCH + next_of(next_of(k)) % STRETCH, places[2] = {0, 0};
        for (unsigned bit = 0; bit < BITS; bit += 1)
            for (unsigned axis = 0; axis < 2; axis += 1)
                places[axis] |= (along >> (2 * bit + axis) & 1) << bit;
        for (unsigned axis = 0; axis < 2; axis += 1)
            put_at(&bodies[k], axis, places[axis]);
        bodies[k].weight.mass = (float)(1 + k % 3);
        bodies[k].cost = 1;
    }
}

/* This processor's part of the bodies: all parts have cost the same. */
static struct part part_of_cost(void)
{
    unsigned all = 0, before = 0;
    struct part part = {SIZE, SIZE};
    for (unsigned k = 0; k < SIZE; k += 1)
        all += bodies[k].cost;
    for (unsigned k = 0; k < SIZE; k += 1) {
        unsigned owner = before * processors() / all;
        if (part.from == SIZE && owner >= processor())
            part.from = k;
        if (part.to == SIZE && owner > processor())
            part.to = k;
        before += bodies[k].cost;
    }
    return part;
}

static void make_tree(struct part part)
{
    begin_tree();
    meet(&barrier, processors());
    for (unsigned k = part.from; k < part.to; k += 1)
        if (!insert(~(int)k))
            fetch_and_add(&lost, 1);
    meet(&barrier, processors());
    weigh_tree();
}

/* One step of the bodies in a part. */
static void step(struct part part)
{
    float pulls[SIZE][3];
    make_tree(part);
    for (unsigned k = part.from; k < part.to; k += 1) {
        float *pull = pulls[k - part.from];
        pull[0] = pull[1] = pull[2] = 0;
        bodies[k].cost = add_tree(&bodies[k], ROOT, 1 << BITS, pull);
    }
    meet(&barrier, processors());
    for (unsigned k = part.from; k < part.to; k += 1)
        move(&bodies[k], pulls[k - part.from]);
}

static void check(struct part part)
{
    unsigned sum = 0, wrong = 0;
    make_tree(part);
    for (unsigned k = part.from; k < part.to; k += 1) {
        float pull[3] = {0};
        for (unsigned axis = 0; axis < 2; axis += 1)
            sum += at_place(2 * k + axis, bodies[k].place[axis]);
        if (k % CHECKED != 0)
            continue;
        add_tree(&bodies[k], ROOT, 1 << BITS, pull);
        wrong += !is_right(&bodies[k], pull);
    }
    tell(sum, wrong);
}

/* The first step tells what each body costs. */
static void work(void *unused)
{
    struct part part = {first_of(SIZE, processor()), first_of(SIZE, processor() + 1)};
    (void)unused;
    fill(part);
    step(part);
    meet(&barrier, processors());
    phase(1);
    for (unsigned count = 0; count < STEPS; count += 1) {
        part = part_of_cost();
        step(part);
    }
    meet(&barrier, processors());
    phase(2);
    check(part);
}

int main(void)
{
    parallel(work, 0);
    tell(0, lost);
    return report("barnes");
}
