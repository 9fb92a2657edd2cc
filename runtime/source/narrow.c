/* Atomic accesses of bytes and halfwords, for which RV32 has no instruction, by the word that they lie
   in: GCC calls these. Those of a byte or a halfword that are plain loads and stores it makes itself. */
#include <stdbool.h>
#include <stdint.h>

/* The word of a byte or a halfword, and how far up it stands there. */
static inline uint32_t *word_of(volatile void *at)
{
    return (uint32_t *)((uintptr_t)at & ~(uintptr_t)3);
}

static inline unsigned shift_of(volatile void *at)
{
    return (uintptr_t)at % 4 * 8;
}

/* Puts a value there, where the word is as before. */
static inline bool put(volatile void *at, uint32_t *before, uint32_t mask, uint32_t value)
{
    uint32_t after = (*before & ~(mask << shift_of(at))) | (value & mask) << shift_of(at);
    return __atomic_compare_exchange_n(word_of(at), before, after, true, __ATOMIC_SEQ_CST,
                                       __ATOMIC_RELAXED);
}

/* GCC knows these names as its own; the library has them by another. */
#define CALL(name, bytes) __asm__("__atomic_" #name "_" #bytes)

#define CHANGE(name, bytes, type, after)                                                     \
    type narrow_##name##_##bytes(volatile void *at, type value, int order)                   \
        CALL(name, bytes);                                                                   \
    type narrow_##name##_##bytes(volatile void *at, type value, int order)                   \
    {                                                                                        \
        uint32_t word = __atomic_load_n(word_of(at), __ATOMIC_RELAXED);                      \
        type before;                                                                         \
        (void)order;                                                                         \
        do                                                                                   \
            before = (type)(word >> shift_of(at));                                           \
        while (!put(at, &word, (type)-1, (type)(after)));                                    \
        return before;                                                                       \
    }

#define COMPARE(bytes, type)                                                                 \
    _Bool narrow_compare_##bytes(volatile void *at, void *expected, type value, _Bool weak,  \
                                 int order, int other) CALL(compare_exchange, bytes);        \
    _Bool narrow_compare_##bytes(volatile void *at, void *expected, type value, _Bool weak,  \
                                 int order, int other)                                       \
    {                                                                                        \
        uint32_t word = __atomic_load_n(word_of(at), __ATOMIC_RELAXED);                      \
        type before;                                                                         \
        (void)weak, (void)order, (void)other;                                                \
        do {                                                                                 \
            before = (type)(word >> shift_of(at));                                           \
            if (before != *(type *)expected) {                                               \
                *(type *)expected = before;                                                  \
                return false;                                                                \
            }                                                                                \
        } while (!put(at, &word, (type)-1, value));                                          \
        return true;                                                                         \
    }

#define ALL(bytes, type)                                                                     \
    CHANGE(exchange, bytes, type, value)                                                     \
    CHANGE(fetch_add, bytes, type, before + value)                                           \
    CHANGE(fetch_sub, bytes, type, before - value)                                           \
    CHANGE(fetch_and, bytes, type, before & value)                                           \
    CHANGE(fetch_or, bytes, type, before | value)                                            \
    CHANGE(fetch_xor, bytes, type, before ^ value)                                           \
    CHANGE(fetch_nand, bytes, type, ~(before & value))                                       \
    COMPARE(bytes, type)

ALL(1, uint8_t)
ALL(2, uint16_t)
