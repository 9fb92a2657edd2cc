/* The C library's <sched.h>, and the one call that means something here. */
#include_next <sched.h>

#ifndef SHASTA_SCHED_H
#define SHASTA_SCHED_H

#ifdef __cplusplus
extern "C" {
#endif

/* Lets the other threads of this processor run. */
int sched_yield(void);

#ifdef __cplusplus
}
#endif

#endif
