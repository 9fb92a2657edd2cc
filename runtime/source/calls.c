/* Calls that the C library makes of a system, where there is none. */
#include "clock.h"

#include <errno.h>
#include <signal.h>
#include <sys/time.h>
#include <sys/times.h>
#include <unistd.h>

int isatty(int file)
{
    (void)file;
    errno = ENOTTY;
    return 0;
}

pid_t getpid(void)
{
    return 1;
}

/* A signal that nobody catches ends the program; 0 asks whether the process is there. */
int kill(pid_t process, int signal)
{
    if (signal < 0 || signal >= NSIG) {
        errno = EINVAL;
        return -1;
    }
    if (process != 1) {
        errno = ESRCH;
        return -1;
    }
    if (signal != 0)
        _exit(128 + signal);
    return 0;
}

clock_t times(struct tms *times)
{
    clock_t now = (clock_t)(__shasta_time() * CLOCKS_PER_SEC / 1000);
    *times = (struct tms){.tms_utime = now};
    return now;
}

int gettimeofday(struct timeval *restrict now, void *restrict zone)
{
    unsigned long long milliseconds = __shasta_time();
    (void)zone;
    *now = (struct timeval){
        .tv_sec = (time_t)(milliseconds / 1000),
        .tv_usec = (suseconds_t)(milliseconds % 1000 * 1000),
    };
    return 0;
}
