/* timespec_get of <time.h>. */
#include <sys/time.h>
#include <time.h>

int timespec_get(struct timespec *now, int base)
{
    struct timeval time;
    if (base != TIME_UTC || gettimeofday(&time, 0) != 0)
        return 0;
    *now = (struct timespec){time.tv_sec, time.tv_usec * 1000};
    return base;
}
