/* pthread_once, which is call_once. */
#include "once.h"

#include <pthread.h>

int pthread_once(pthread_once_t *once, void (*function)(void))
{
    __shasta_once(once, function);
    return 0;
}
