/* tss_get of <threads.h> and its kin. */
#include "keys.h"

#include "threads.h"

int tss_create(tss_t *key, tss_dtor_t at_end)
{
    int made = __shasta_make_key(at_end);
    *key = (tss_t)made;
    return made < 0 ? thrd_error : thrd_success;
}

void *tss_get(tss_t key)
{
    return __shasta_kept(key);
}

int tss_set(tss_t key, void *value)
{
    return __shasta_keep(key, value) ? thrd_success : thrd_error;
}

void tss_delete(tss_t key)
{
    __shasta_drop_key(key);
}
