/* Sorts words of 32 bits by heaps, some times over. */
#include "common.h"

enum { COUNT = 20000, ROUNDS = 6 };

static unsigned numbers[COUNT];

static void sink(int at, int end)
{
    unsigned held = numbers[at];
    for (int below = 2 * at + 1; below < end; below = 2 * at + 1) {
        if (below + 1 < end && numbers[below] < numbers[below + 1])
            below += 1;
        if (numbers[below] <= held)
            break;
        numbers[at] = numbers[below];
        at = below;
    }
    numbers[at] = held;
}

static void sort(void)
{
    for (int at = COUNT / 2; at > 0; at -= 1)
        sink(at - 1, COUNT);
    for (int end = COUNT - 1; end > 0; end -= 1) {
        unsigned last = numbers[end];
        numbers[end] = numbers[0];
        numbers[0] = last;
        sink(0, end);
    }
}

int main(int me, int count)
{
    (void)count;
    if (me != 0)
        return 0;
    unsigned seed = 1, sum = 0;
    for (int round = 0; round < ROUNDS; round += 1) {
        for (int k = 0; k < COUNT; k += 1)
            numbers[k] = seed = next_of(seed);
        sort();
        for (int k = 0; k < COUNT; k += 1)
            sum = sum * 31 + numbers[k];
    }
    print("sort", sum % 100000u);
    return 0;
}
