/* What is done once. */
#include "once.h"

#include "shasta.h"

enum { NOT_YET, UNDER_WAY, CALLED };

void __shasta_once(unsigned *flag, void (*function)(void))
{
    unsigned before = NOT_YET;
    if (__atomic_load_n(flag, __ATOMIC_ACQUIRE) == CALLED)
        return;
    if (__atomic_compare_exchange_n(flag, &before, UNDER_WAY, 0, __ATOMIC_ACQUIRE,
                                    __ATOMIC_ACQUIRE)) {
        function();
        __atomic_store_n(flag, CALLED, __ATOMIC_RELEASE);
    }
    while (__atomic_load_n(flag, __ATOMIC_ACQUIRE) != CALLED)
        shasta_rest();
}
