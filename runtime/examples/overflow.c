/* A thread that uses up its stack. */
#include <pthread.h>
#include <stdio.h>
#include <string.h>

static __attribute__((noinline)) unsigned go_down(unsigned level)
{
    char room[1000];
    memset(room, (int)level, sizeof room);
    if (level == 20)
        sched_yield();
    return level == 20 ? 0 : go_down(level + 1) + (unsigned)room[level];
}

static void *work(void *unused)
{
    printf("sum %u\n", go_down(0));
    return unused;
}

int main(void)
{
    pthread_attr_t attributes;
    pthread_t thread;
    pthread_attr_init(&attributes);
    pthread_attr_setstacksize(&attributes, 30000);
    pthread_create(&thread, &attributes, work, 0);
    pthread_join(thread, 0);
    pthread_attr_setstacksize(&attributes, 16384);
    pthread_create(&thread, &attributes, work, 0);
    pthread_join(thread, 0);
    return 0;
}
