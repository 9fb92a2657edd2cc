/* Processor 0 puts numbers into a ring, processor 1 takes them out. */
#include "common.h"

enum { PLACES = 64, ITEMS = 20000 };

static struct { unsigned at; } put LINE;
static struct { unsigned at; } taken LINE;
static volatile unsigned ring[PLACES] LINE;

int main(int me, int count)
{
    if (count == 1 || me > 1)
        return 0;
    unsigned sum = 0;
    for (unsigned k = 0; k < ITEMS; k += 1) {
        if (me == 0) {
            while (k - __atomic_load_n(&taken.at, __ATOMIC_ACQUIRE) == PLACES)
                ;
            ring[k % PLACES] = k;
            __atomic_store_n(&put.at, k + 1, __ATOMIC_RELEASE);
        } else {
            while (__atomic_load_n(&put.at, __ATOMIC_ACQUIRE) == k)
                ;
            sum += ring[k % PLACES] ^ k;
            __atomic_store_n(&taken.at, k + 1, __ATOMIC_RELEASE);
        }
    }
    return (int)sum;
}
