/* Threads that main doesn't join: it leaves them, and the program ends when the last one does. One of
   them is detached, and one joins main. */
#include <pthread.h>
#include <stdio.h>
#include <threads.h>

static pthread_t first;
static unsigned before;

static void *join_main(void *unused)
{
    void *given;
    pthread_join(first, &given);
    printf("main gave %s\n", (const char *)given);
    __atomic_store_n(&before, 1, __ATOMIC_RELEASE);
    return unused;
}

static int come_last(void *unused)
{
    (void)unused;
    while (!__atomic_load_n(&before, __ATOMIC_ACQUIRE))
        thrd_yield();
    printf("the last one\n");
    return 7;
}

int main(void)
{
    pthread_t other;
    thrd_t last;
    first = pthread_self();
    pthread_create(&other, 0, join_main, 0);
    thrd_create(&last, come_last, 0);
    thrd_detach(last);
    pthread_exit("a word");
}
