/* Threads beside `parallel`: what a processor's part of it leaves in thread-local data stays for the
   next one, a thread begins with its own, and a part may be ended as a thread is. */
#include "shasta_short.h"

#include <stdio.h>
#include <threads.h>

static thread_local unsigned calls = 100;
static unsigned wrong, ran;

static void part(void *variable)
{
    calls += 1;
    if (calls != 100 + *(unsigned *)variable)
        fetch_and_add(&wrong, 1);
    fetch_and_add(&ran, 1);
    thrd_yield();
}

static int thread(void *variable)
{
    *(unsigned *)variable = calls;
    return 0;
}

static void go_away(void *unused)
{
    (void)unused;
    if (processor() != 0)
        thrd_exit(0);
}

int main(void)
{
    unsigned turn = 0, seen = 0;
    thrd_t made;
    for (turn = 1; turn <= 3; turn += 1)
        parallel(part, &turn);
    thrd_create(&made, thread, &seen);
    parallel(go_away, 0);
    thrd_join(made, 0);
    printf("wrong %u, missing %u, a thread sees %u\n", wrong, 3 * processors() - ran, seen);
    return 0;
}
