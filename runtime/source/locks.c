/* The locks that the C library asks for: one for all, which its holder may enter again. */
#include "own.h"

#include <sys/lock.h>

struct __lock {
    struct shasta_lock lock;
    unsigned holder;         /* the processor's number and 1, or 0 */
    unsigned depth;
};

struct __lock __lock___libc_recursive_mutex;

void __retarget_lock_acquire_recursive(_LOCK_T lock)
{
    if (__atomic_load_n(&lock->holder, __ATOMIC_RELAXED) != own.number + 1) {
        __shasta_enter(&lock->lock);
        __atomic_store_n(&lock->holder, own.number + 1, __ATOMIC_RELAXED);
    }
    lock->depth += 1;
}

void __retarget_lock_release_recursive(_LOCK_T lock)
{
    lock->depth -= 1;
    if (lock->depth != 0)
        return;
    __atomic_store_n(&lock->holder, 0, __ATOMIC_RELAXED);
    shasta_leave(&lock->lock);
}

void __retarget_lock_init(_LOCK_T *lock)
{
    *lock = &__lock___libc_recursive_mutex;
}

void __retarget_lock_close(_LOCK_T lock)
{
    (void)lock;
}

void __retarget_lock_acquire(_LOCK_T lock)
{
    __retarget_lock_acquire_recursive(lock);
}

void __retarget_lock_release(_LOCK_T lock)
{
    __retarget_lock_release_recursive(lock);
}
