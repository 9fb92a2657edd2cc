/* POSIX's calls for time and for other threads. */
#include "clock.h"
#include "own.h"

#include <errno.h>
#include <sched.h>
#include <unistd.h>

int clock_gettime(clockid_t clock, struct timespec *now)
{
    (void)clock;
    *now = __shasta_time_now();
    return 0;
}

int clock_getres(clockid_t clock, struct timespec *step)
{
    (void)clock;
    if (step != 0)
        *step = (struct timespec){.tv_nsec = 1000000};
    return 0;
}

int nanosleep(const struct timespec *time, struct timespec *left)
{
    if (time->tv_sec < 0 || time->tv_nsec < 0 || time->tv_nsec >= 1000000000) {
        errno = EINVAL;
        return -1;
    }
    __shasta_pass(time);
    if (left != 0)
        *left = (struct timespec){0};
    return 0;
}

int usleep(useconds_t microseconds)
{
    struct timespec time = {microseconds / 1000000, (long)(microseconds % 1000000) * 1000};
    __shasta_pass(&time);
    return 0;
}

unsigned sleep(unsigned seconds)
{
    struct timespec time = {(time_t)seconds, 0};
    __shasta_pass(&time);
    return 0;
}

int sched_yield(void)
{
    shasta_rest();
    return 0;
}

long sysconf(int name)
{
    switch (name) {
    case _SC_NPROCESSORS_CONF:
    case _SC_NPROCESSORS_ONLN:
        return (long)own.count;
    case _SC_PAGESIZE:
        return 4096;
    case _SC_CLK_TCK:
        return CLOCKS_PER_SEC;
    case _SC_THREAD_STACK_MIN:
        return 4096;
    default:
        errno = EINVAL;
        return -1;
    }
}
