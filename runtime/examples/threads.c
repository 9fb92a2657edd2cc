/* <threads.h>: more threads than there are processors; a mutex, a condition, what is
   done once, and what each thread keeps for itself. It prints the same for each number of
   processors. */
#include <errno.h>
#include <stdatomic.h>
#include <stdio.h>
#include <stdlib.h>
#include <threads.h>

enum { JOBS = 12, THREADS = 20 };

static mtx_t mutex;
static cnd_t changed;
static unsigned next_job, done_jobs, calls, ended;
static atomic_ullong wide;
static once_flag once = ONCE_FLAG_INIT;
static tss_t key;
static thread_local unsigned jobs_here;

static void begin(void)
{
    calls += 1;
}

static void at_end(void *value)
{
    free(value);
    atomic_fetch_add((atomic_uint *)&ended, 1);
}

static void do_job(unsigned job)
{
    jobs_here += 1;
    errno = (int)job;
    atomic_fetch_add(&wide, 0x100000001ull * (unsigned)errno);
}

static int work(void *unused)
{
    (void)unused;
    call_once(&once, begin);
    tss_set(key, malloc(10));
    for (;;) {
        mtx_lock(&mutex);
        unsigned job = next_job;
        next_job += job < JOBS;
        mtx_unlock(&mutex);
        if (job == JOBS)
            thrd_exit((int)jobs_here);
        do_job(job);
        mtx_lock(&mutex);
        done_jobs += 1;
        cnd_broadcast(&changed);
        mtx_unlock(&mutex);
    }
}

static void make_threads(thrd_t *threads)
{
    for (unsigned k = 0; k < THREADS; k += 1)
        thrd_create(&threads[k], work, 0);
}

static unsigned join_all(const thrd_t *threads)
{
    unsigned jobs = 0;
    for (unsigned k = 0; k < THREADS; k += 1) {
        int result;
        thrd_join(threads[k], &result);
        jobs += (unsigned)result;
    }
    return jobs;
}

int main(void)
{
    thrd_t threads[THREADS];
    mtx_init(&mutex, mtx_plain | mtx_recursive);
    tss_create(&key, at_end);
    make_threads(threads);
    mtx_lock(&mutex);
    while (done_jobs < JOBS)
        cnd_wait(&changed, &mutex);
    mtx_unlock(&mutex);
    unsigned jobs = join_all(threads);
    make_threads(threads);
    jobs += join_all(threads);
    printf("jobs %u, of threads %u\n", done_jobs, jobs);
    printf("once %u, ends missing %u\n", calls, 2 * THREADS - ended);
    printf("sum %llx\n", (unsigned long long)wide);
    return 0;
}
