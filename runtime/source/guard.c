/* What C++ compilers call: for local statics, which are made once, and for functions that aren't
   there. */
#include "own.h"

#include <stdint.h>

/* Of a guard of 64 bits the first byte says that the variable is made; here the second word says that
   it is being made. */
struct guard {
    uint8_t is_made;
    uint32_t is_being_made;
};

int __cxa_guard_acquire(struct guard *guard)
{
    while (!__atomic_load_n(&guard->is_made, __ATOMIC_ACQUIRE)) {
        if (__atomic_exchange_n(&guard->is_being_made, 1, __ATOMIC_ACQUIRE) == 0) {
            if (!__atomic_load_n(&guard->is_made, __ATOMIC_ACQUIRE))
                return 1;
            __atomic_store_n(&guard->is_being_made, 0, __ATOMIC_RELEASE);
        }
        shasta_rest();
    }
    return 0;
}

void __cxa_guard_release(struct guard *guard)
{
    __atomic_store_n(&guard->is_made, 1, __ATOMIC_RELEASE);
    __atomic_store_n(&guard->is_being_made, 0, __ATOMIC_RELEASE);
}

void __cxa_guard_abort(struct guard *guard)
{
    __atomic_store_n(&guard->is_being_made, 0, __ATOMIC_RELEASE);
}

void __cxa_pure_virtual(void)
{
    __shasta_fail("shasta: a virtual function is called that its class doesn't have\n");
}

void __cxa_deleted_virtual(void)
{
    __shasta_fail("shasta: a deleted virtual function is called\n");
}

/* By which __cxa_atexit knows a shared library: there are none. */
void *__dso_handle;
