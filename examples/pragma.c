/* How many points of a square lie within a circle: a loop with a pragma. */
#include <stdio.h>

enum { SIDE = 1000 };

int main(void)
{
    int inside = 0;
#pragma omp parallel for reduction(+ : inside)
    for (int y = 0; y < SIDE; y += 1)
        for (int x = 0; x < SIDE; x += 1)
            inside += x * x + y * y < SIDE * SIDE;
    printf("%d of %d\n", inside, SIDE * SIDE);
    return 0;
}
