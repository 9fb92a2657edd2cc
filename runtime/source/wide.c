/* Atomic accesses of 64 bits, and of any number of bytes, for which RV32 has no instruction: compilers
   call these. One lock for all. */
#include "own.h"

#include <stdint.h>
#include <string.h>

static struct shasta_lock lock;

/* GCC knows these names as its own; the library has them by another. */
#define CALL(name) __asm__("__atomic_" #name "_8")

uint64_t wide_load(const volatile void *word, int order) CALL(load);
void wide_store(volatile void *word, uint64_t value, int order) CALL(store);
uint64_t wide_exchange(volatile void *word, uint64_t value, int order) CALL(exchange);
_Bool wide_compare_exchange(volatile void *word, void *expected, uint64_t value, _Bool weak,
                            int order, int other) CALL(compare_exchange);

uint64_t wide_load(const volatile void *word, int order)
{
    (void)order;
    __shasta_enter(&lock);
    uint64_t value = *(const volatile uint64_t *)word;
    shasta_leave(&lock);
    return value;
}

uint64_t wide_exchange(volatile void *word, uint64_t value, int order)
{
    (void)order;
    __shasta_enter(&lock);
    uint64_t before = *(volatile uint64_t *)word;
    *(volatile uint64_t *)word = value;
    shasta_leave(&lock);
    return before;
}

void wide_store(volatile void *word, uint64_t value, int order)
{
    wide_exchange(word, value, order);
}

_Bool wide_compare_exchange(volatile void *word, void *expected, uint64_t value, _Bool weak,
                            int order, int other)
{
    (void)weak, (void)order, (void)other;
    __shasta_enter(&lock);
    uint64_t before = *(volatile uint64_t *)word;
    _Bool same = before == *(uint64_t *)expected;
    if (same)
        *(volatile uint64_t *)word = value;
    else
        *(uint64_t *)expected = before;
    shasta_leave(&lock);
    return same;
}

/* fetch_add and its kin. */
#define FETCH(name, after)                                                                   \
    uint64_t wide_fetch_##name(volatile void *word, uint64_t value, int order)               \
        CALL(fetch_##name);                                                                  \
    uint64_t wide_fetch_##name(volatile void *word, uint64_t value, int order)               \
    {                                                                                        \
        (void)order;                                                                         \
        __shasta_enter(&lock);                                                                 \
        uint64_t before = *(volatile uint64_t *)word;                                        \
        *(volatile uint64_t *)word = after;                                                  \
        shasta_leave(&lock);                                                                 \
        return before;                                                                       \
    }

FETCH(add, before + value)
FETCH(sub, before - value)
FETCH(and, before & value)
FETCH(or, before | value)
FETCH(xor, before ^ value)
FETCH(nand, ~(before & value))

/* Any number of bytes. */
#define GENERIC(name) __asm__("__atomic_" #name)

void any_load(size_t bytes, const volatile void *at, void *result, int order) GENERIC(load);
void any_store(size_t bytes, volatile void *at, const void *value, int order) GENERIC(store);
void any_exchange(size_t bytes, volatile void *at, const void *value, void *result, int order)
    GENERIC(exchange);
_Bool any_compare(size_t bytes, volatile void *at, void *expected, const void *value, int order,
                  int other) GENERIC(compare_exchange);
_Bool any_is_free(size_t bytes, const volatile void *at) GENERIC(is_lock_free);

void any_load(size_t bytes, const volatile void *at, void *result, int order)
{
    (void)order;
    __shasta_enter(&lock);
    memcpy(result, (const void *)at, bytes);
    shasta_leave(&lock);
}

void any_store(size_t bytes, volatile void *at, const void *value, int order)
{
    (void)order;
    __shasta_enter(&lock);
    memcpy((void *)at, value, bytes);
    shasta_leave(&lock);
}

/* The value and the result may be one. */
void any_exchange(size_t bytes, volatile void *at, const void *value, void *result, int order)
{
    unsigned char *shared = (unsigned char *)at, *given = result;
    const unsigned char *taken = value;
    (void)order;
    __shasta_enter(&lock);
    for (size_t k = 0; k < bytes; k += 1) {
        unsigned char before = shared[k];
        shared[k] = taken[k];
        given[k] = before;
    }
    shasta_leave(&lock);
}

_Bool any_compare(size_t bytes, volatile void *at, void *expected, const void *value, int order,
                  int other)
{
    (void)order, (void)other;
    __shasta_enter(&lock);
    _Bool same = memcmp((const void *)at, expected, bytes) == 0;
    if (same)
        memcpy((void *)at, value, bytes);
    else
        memcpy(expected, (const void *)at, bytes);
    shasta_leave(&lock);
    return same;
}

/* A byte, a halfword and a word need no lock. */
_Bool any_is_free(size_t bytes, const volatile void *at)
{
    (void)at;
    return bytes == 1 || bytes == 2 || bytes == 4;
}
