/* C11's atomics of every size, by all processors at the same time. It prints the same for each number of
   processors. */
#include "shasta_short.h"

#include <stdatomic.h>
#include <stdbool.h>
#include <stdio.h>

enum { TURNS = 16 };

struct three {
    int a, b, c;
};

static _Atomic unsigned char bytes[4];
static _Atomic unsigned short halves[2];
static atomic_bool flag;
static unsigned char plain;
static atomic_uint word;
static atomic_ullong wide;
static _Atomic double real;
static _Atomic struct three triple;
static atomic_flag taken = ATOMIC_FLAG_INIT;
static unsigned under, wrong;

static void wants(bool is_so)
{
    if (!is_so)
        fetch_and_add(&wrong, 1);
}

static void add_to_triple(void)
{
    struct three before = atomic_load(&triple), after;
    do
        after = (struct three){before.a + 1, before.b + 2, before.c + 3};
    while (!atomic_compare_exchange_weak(&triple, &before, after));
    wants(before.b == 2 * before.a && before.c == 3 * before.a);
}

static void work(void *unused)
{
    (void)unused;
    for (unsigned turn = 0; turn < TURNS; turn += 1) {
        atomic_fetch_add(&bytes[0], 1);
        bytes[1] -= 1;
        atomic_fetch_xor(&bytes[2], 1);
        atomic_fetch_or(&bytes[3], (unsigned char)(1u << processor() % 8));
        atomic_fetch_sub(&halves[0], 3);
        halves[1] += 300;
        atomic_fetch_add(&word, 1);
        wide += 0x100000001ull;
        real = real + 0;
        add_to_triple();
        unsigned char seen = bytes[0];
        while (!atomic_compare_exchange_weak(&bytes[0], &seen, seen))
            ;
        while (atomic_flag_test_and_set(&taken))
            rest();
        under += 1;
        atomic_flag_clear(&taken);
    }
}

int main(void)
{
    unsigned count = processors() * TURNS;
    struct three result;
    atomic_init(&real, 1.5);
    parallel(work, 0);
    wants(bytes[0] == (unsigned char)count && bytes[1] == (unsigned char)-count && bytes[2] == 0);
    wants(bytes[3] == (processors() >= 8 ? 255 : (1u << processors()) - 1));
    wants(halves[0] == (unsigned short)(-3 * (int)count) && halves[1] == (unsigned short)(300 * count));
    wants(word == count && wide == 0x100000001ull * count && under == count && real == 1.5);
    result = atomic_exchange(&triple, ((struct three){7, 8, 9}));
    wants(result.a == (int)count && result.c == 3 * (int)count && atomic_load(&triple).b == 8);
    wants(!atomic_exchange(&flag, true) && atomic_load(&flag));
    wants(__atomic_fetch_nand(&plain, 3, __ATOMIC_SEQ_CST) == 0 && plain == 255);
    wants(atomic_is_lock_free(&word) && !atomic_is_lock_free(&triple));
    printf("atomics, wrong %u\n", wrong);
    return 0;
}
