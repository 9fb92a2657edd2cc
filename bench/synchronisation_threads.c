/* What OpenMP's constructs and a mutex of <pthread.h> cost: each is done TURNS times, after some that
   bring all lines to where they are used. WHAT is one of the functions below. */
#include <omp.h>
#include <pthread.h>

#ifndef TURNS
#define TURNS 20
#endif

enum { FIRST = 4 };

static pthread_mutex_t mutex = PTHREAD_MUTEX_INITIALIZER;
static struct {
    unsigned word __attribute__((aligned(64)));
} guarded;

static void regions(unsigned turns)
{
    for (unsigned k = 0; k < turns; k += 1)
#pragma omp parallel
        __asm__ volatile("");
}

static void barriers(unsigned turns)
{
#pragma omp parallel
    for (unsigned k = 0; k < turns; k += 1) {
#pragma omp barrier
    }
}

/* So many parts of one iteration for each thread. */
static void parts(unsigned turns)
{
    int count = (int)turns * omp_get_max_threads();
#pragma omp parallel for schedule(dynamic)
    for (int k = 0; k < count; k += 1)
        __asm__ volatile("");
}

/* So many empty tasks for each thread, made by one. */
static void tasks(unsigned turns)
{
    unsigned count = turns * (unsigned)omp_get_max_threads();
#pragma omp parallel
#pragma omp single
    for (unsigned k = 0; k < count; k += 1)
#pragma omp task
        __asm__ volatile("");
}

/* All want the mutex all the time, and write a word under it. */
static void mutexes(unsigned turns)
{
#pragma omp parallel
    for (unsigned k = 0; k < turns; k += 1) {
        pthread_mutex_lock(&mutex);
        guarded.word += 1;
        pthread_mutex_unlock(&mutex);
    }
}

int main(void)
{
    (void)regions, (void)barriers, (void)parts, (void)tasks, (void)mutexes;
    WHAT(FIRST);
    WHAT(TURNS);
    return 0;
}
