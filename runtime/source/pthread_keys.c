/* What each thread keeps for itself by <pthread.h>. */
#include "keys.h"

#include <errno.h>
#include <pthread.h>

int pthread_key_create(pthread_key_t *key, void (*at_end)(void *))
{
    int made = __shasta_make_key(at_end);
    if (made < 0)
        return EAGAIN;
    *key = (pthread_key_t)made;
    return 0;
}

int pthread_key_delete(pthread_key_t key)
{
    return __shasta_drop_key(key) ? 0 : EINVAL;
}

int pthread_setspecific(pthread_key_t key, const void *value)
{
    return __shasta_keep(key, value) ? 0 : EINVAL;
}

void *pthread_getspecific(pthread_key_t key)
{
    return __shasta_kept(key);
}
