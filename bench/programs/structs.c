/* Goes through records of 24 bytes, with fields of one, two and four bytes, and moves them. */
#include "common.h"

enum { COUNT = 2000, ROUNDS = 200 };

struct body {
    int x, y;
    short dx, dy;
    unsigned char kind, age;
    unsigned short hits;
    unsigned next;
    unsigned weight;
};

static struct body bodies[COUNT];

static void move(struct body *body)
{
    body->x += body->dx;
    body->y += body->dy;
    if (body->x < 0 || body->x > 10000) {
        body->dx = (short)-body->dx;
        body->hits += 1;
    }
    if (body->y < 0 || body->y > 10000) {
        body->dy = (short)-body->dy;
        body->hits += 1;
    }
    body->age += 1;
    bodies[body->next].weight += body->kind;
}

int main(int me, int count)
{
    (void)count;
    if (me != 0)
        return 0;
    unsigned seed = 1, sum = 0;
    for (int k = 0; k < COUNT; k += 1) {
        struct body *body = &bodies[k];
        body->x = (int)((seed = next_of(seed)) >> 18);
        body->y = (int)((seed = next_of(seed)) >> 18);
        body->dx = (short)((int)((seed = next_of(seed)) >> 25) - 64);
        body->dy = (short)((int)((seed = next_of(seed)) >> 25) - 64);
        body->kind = (unsigned char)((seed = next_of(seed)) >> 29);
        body->next = ((seed = next_of(seed)) >> 8) % COUNT;
    }
    for (int round = 0; round < ROUNDS; round += 1)
        for (int k = 0; k < COUNT; k += 1)
            move(&bodies[k]);
    for (int k = 0; k < COUNT; k += 1)
        sum = sum * 31 + (unsigned)bodies[k].x + (unsigned)bodies[k].y + bodies[k].hits + bodies[k].weight;
    print("structs", sum % 100000u);
    return 0;
}
