/* The count that stands for a clock. */
#include "clock.h"

#include "own.h"

static struct {
    struct shasta_lock lock;
    unsigned long long milliseconds;
} passed;

static unsigned long long add(unsigned long long milliseconds)
{
    shasta_rest();
    __shasta_enter(&passed.lock);
    unsigned long long now = passed.milliseconds + milliseconds;
    passed.milliseconds = now;
    shasta_leave(&passed.lock);
    return now;
}

unsigned long long __shasta_time(void)
{
    return add(1);
}

struct timespec __shasta_time_now(void)
{
    unsigned long long now = add(1);
    return (struct timespec){
        .tv_sec = (time_t)(now / 1000),
        .tv_nsec = (long)(now % 1000) * 1000000,
    };
}

void __shasta_pass(const struct timespec *time)
{
    add((unsigned long long)time->tv_sec * 1000 + ((unsigned)time->tv_nsec + 999999) / 1000000);
}

bool __shasta_is_past(const struct timespec *time)
{
    struct timespec now = __shasta_time_now();
    return now.tv_sec > time->tv_sec ||
           (now.tv_sec == time->tv_sec && now.tv_nsec >= time->tv_nsec);
}
