/* call_once of <threads.h>. */
#include "once.h"

#include "threads.h"

void call_once(once_flag *flag, void (*function)(void))
{
    __shasta_once(flag, function);
}
