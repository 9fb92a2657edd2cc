/* <pthread.h> and <semaphore.h>: twice as many threads as there may be processors, of which each pair
   uses one part after the other. It prints the same for each number of processors. */
#include <errno.h>
#include <pthread.h>
#include <semaphore.h>
#include <stdio.h>
#include <stdlib.h>
#include <unistd.h>

enum { THREADS = 20, ROUNDS = 3 };

static pthread_mutex_t mutex = PTHREAD_MUTEX_INITIALIZER;
static pthread_mutex_t twice = PTHREAD_RECURSIVE_MUTEX_INITIALIZER;
static pthread_mutex_t checked = PTHREAD_ERRORCHECK_MUTEX_INITIALIZER;
static pthread_cond_t changed = PTHREAD_COND_INITIALIZER;
static pthread_rwlock_t shared = PTHREAD_RWLOCK_INITIALIZER;
static pthread_spinlock_t spin;
static pthread_barrier_t barrier;
static pthread_once_t once = PTHREAD_ONCE_INIT;
static pthread_key_t key;
static sem_t semaphore;
static unsigned turn, calls, serial, counted, written, spun, entered, wrong, ended;
static __thread unsigned own_rounds;

static void wants(int is_so)
{
    if (!is_so)
        __atomic_fetch_add(&wrong, 1, __ATOMIC_RELAXED);
}

static void begin(void)
{
    calls += 1;
}

static void at_end(void *value)
{
    wants(*(unsigned *)value < THREADS);
    free(value);
    __atomic_fetch_add(&ended, 1, __ATOMIC_RELAXED);
}

/* Each thread in its turn. */
static void in_turn(unsigned number)
{
    pthread_mutex_lock(&mutex);
    while (turn % THREADS != number)
        pthread_cond_wait(&changed, &mutex);
    turn += 1;
    pthread_cond_broadcast(&changed);
    pthread_mutex_unlock(&mutex);
}

static void mutexes(void)
{
    wants(pthread_mutex_lock(&twice) == 0 && pthread_mutex_lock(&twice) == 0);
    counted += 1;
    wants(pthread_mutex_unlock(&twice) == 0 && pthread_mutex_unlock(&twice) == 0);
    wants(pthread_mutex_lock(&checked) == 0 && pthread_mutex_lock(&checked) == EDEADLK);
    counted += 1;
    wants(pthread_mutex_unlock(&checked) == 0 && pthread_mutex_unlock(&checked) == EPERM);
}

static void readers_and_writers(unsigned number)
{
    if (number % 4 == 0) {
        pthread_rwlock_wrlock(&shared);
        written += 1;
        sched_yield();
        written += 1;
    } else {
        pthread_rwlock_rdlock(&shared);
        wants(written % 2 == 0);
        sched_yield();
        wants(written % 2 == 0);
    }
    pthread_rwlock_unlock(&shared);
}

static void at_most_two(void)
{
    sem_wait(&semaphore);
    wants(__atomic_add_fetch(&entered, 1, __ATOMIC_RELAXED) <= 2);
    usleep(2000);
    __atomic_fetch_sub(&entered, 1, __ATOMIC_RELAXED);
    sem_post(&semaphore);
}

static void *work(void *given)
{
    unsigned number = *(unsigned *)given;
    unsigned *kept = malloc(sizeof *kept);
    *kept = number;
    pthread_setspecific(key, kept);
    pthread_once(&once, begin);
    for (unsigned round = 0; round < ROUNDS; round += 1) {
        in_turn(number);
        pthread_mutex_lock(&mutex);
        mutexes();
        pthread_mutex_unlock(&mutex);
        readers_and_writers(number);
        at_most_two();
        pthread_spin_lock(&spin);
        spun += 1;
        pthread_spin_unlock(&spin);
        if (pthread_barrier_wait(&barrier) == PTHREAD_BARRIER_SERIAL_THREAD)
            __atomic_fetch_add(&serial, 1, __ATOMIC_RELAXED);
        own_rounds += 1;
        errno = (int)(number + round);
        sched_yield();
        wants(errno == (int)(number + round));
    }
    wants(pthread_getspecific(key) == kept && own_rounds == ROUNDS);
    if (number % 2 == 0)
        pthread_exit(given);
    return given;
}

static void *alone(void *unused)
{
    pthread_mutex_lock(&mutex);
    turn += 1;
    pthread_cond_signal(&changed);
    pthread_mutex_unlock(&mutex);
    return unused;
}

static void errors(void)
{
    struct timespec soon;
    int value;
    wants(pthread_join(pthread_self(), 0) == EDEADLK);
    wants(pthread_mutex_trylock(&mutex) == 0 && pthread_mutex_trylock(&mutex) == EBUSY);
    clock_gettime(CLOCK_REALTIME, &soon);
    soon.tv_sec += 1;
    wants(pthread_cond_timedwait(&changed, &mutex, &soon) == ETIMEDOUT);
    wants(pthread_mutex_timedlock(&mutex, &soon) == ETIMEDOUT);
    pthread_mutex_unlock(&mutex);
    wants(sem_getvalue(&semaphore, &value) == 0 && value == 2);
    sem_wait(&semaphore);
    sem_wait(&semaphore);
    wants(sem_trywait(&semaphore) == -1 && errno == EAGAIN);
    wants(sem_timedwait(&semaphore, &soon) == -1 && errno == ETIMEDOUT);
    wants(pthread_rwlock_tryrdlock(&shared) == 0 && pthread_rwlock_trywrlock(&shared) == EBUSY);
    pthread_rwlock_unlock(&shared);
}

/* A thread that nobody joins, with a stack of its own size. */
static void detached(void)
{
    pthread_attr_t attributes;
    pthread_t thread;
    unsigned before = turn;
    pthread_attr_init(&attributes);
    pthread_attr_setdetachstate(&attributes, PTHREAD_CREATE_DETACHED);
    pthread_attr_setstacksize(&attributes, 16384);
    wants(pthread_create(&thread, &attributes, alone, 0) == 0);
    pthread_mutex_lock(&mutex);
    while (turn == before)
        pthread_cond_wait(&changed, &mutex);
    pthread_mutex_unlock(&mutex);
}

int main(void)
{
    pthread_t threads[THREADS];
    unsigned numbers[THREADS];
    pthread_key_create(&key, at_end);
    pthread_barrier_init(&barrier, 0, THREADS);
    pthread_spin_init(&spin, PTHREAD_PROCESS_PRIVATE);
    sem_init(&semaphore, 0, 2);
    for (unsigned k = 0; k < THREADS; k += 1) {
        numbers[k] = k;
        wants(pthread_create(&threads[k], 0, work, &numbers[k]) == 0);
    }
    for (unsigned k = 0; k < THREADS; k += 1) {
        void *given;
        wants(pthread_join(threads[k], &given) == 0 && given == &numbers[k]);
    }
    wants(pthread_join(threads[0], 0) == ESRCH);
    errors();
    detached();
    printf("turns %u, once %u, serial %u, ended %u\n", turn, calls, serial, ended);
    printf("counted %u, written %u, spun %u, wrong %u\n", counted, written, spun, wrong);
    return 0;
}
