/* The C library's <time.h>, and what C11 and POSIX have beside it. */
#include_next <time.h>

#ifndef SHASTA_TIME_H
#define SHASTA_TIME_H

#include <sys/types.h>

#ifdef __cplusplus
extern "C" {
#endif

/* POSIX's clocks. There is none: the time is a count, which all calls that tell the time have in
   common. It goes on by a millisecond with each of them, and by what is slept. */
#ifndef CLOCK_REALTIME
#define CLOCK_REALTIME ((clockid_t)1)
#endif
#ifndef CLOCK_MONOTONIC
#define CLOCK_MONOTONIC ((clockid_t)4)
#endif

int clock_gettime(clockid_t clock, struct timespec *now);
int clock_getres(clockid_t clock, struct timespec *step);
int nanosleep(const struct timespec *time, struct timespec *left);

#ifdef __cplusplus
}
#endif

#if __ISO_C_VISIBLE >= 2011

#ifdef __cplusplus
extern "C" {
#endif

#define TIME_UTC 1

/* The time since 1970, as gettimeofday gives it; 0 where the base isn't TIME_UTC. */
int timespec_get(struct timespec *now, int base);

#ifdef __cplusplus
}
#endif

#endif

#endif
