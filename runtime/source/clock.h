/* There is no clock. What is given as the time is a count, the same for all processors: it goes on by
   a millisecond with each look at it, and by as much as a thread would sleep. So a loop that waits
   for a time ends. */
#ifndef CLOCK_H
#define CLOCK_H

#include <stdbool.h>
#include <time.h>

/* The time in milliseconds. */
unsigned long long __shasta_time(void);
struct timespec __shasta_time_now(void);

/* Lets a time go by, and other threads run. */
void __shasta_pass(const struct timespec *time);

/* Looks whether a time is past, and lets other threads run. */
bool __shasta_is_past(const struct timespec *time);

#endif
