/* Threads that end while others of their processor wait for the mutex that they had: what ends is
   given back by those who wait. */
#include <pthread.h>
#include <sched.h>
#include <stdio.h>

enum { THREADS = 60 };

static pthread_mutex_t mutex = PTHREAD_MUTEX_INITIALIZER;
static unsigned count;

static void *add(void *more)
{
    pthread_mutex_lock(&mutex);
    count += *(unsigned *)more;
    pthread_mutex_unlock(&mutex);
    return 0;
}

int main(void)
{
    static unsigned one = 1;
    pthread_attr_t detached;
    pthread_attr_init(&detached);
    pthread_attr_setdetachstate(&detached, PTHREAD_CREATE_DETACHED);
    for (unsigned k = 1; k <= THREADS; k += 1) {
        pthread_t thread;
        while (pthread_create(&thread, &detached, add, &one) != 0)
            sched_yield();
    }
    for (unsigned now = 0; now != THREADS; sched_yield()) {
        pthread_mutex_lock(&mutex);
        now = count;
        pthread_mutex_unlock(&mutex);
    }
    printf("%u threads have added\n", count);
    return 0;
}
