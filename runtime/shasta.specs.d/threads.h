/* C's <threads.h>. There may be any number of threads: each has a processor, which takes turns with
   its threads where one of them waits, and interrupts none. There is no clock; see docs/C.md. What
   calls cost is said in misses, as in shasta.h. */
#ifndef THREADS_H
#define THREADS_H

#include <time.h>

#include "shasta_queue.h"

#ifdef __cplusplus
extern "C" {
#else
#define thread_local _Thread_local
#endif

enum { mtx_plain = 1, mtx_recursive = 2, mtx_timed = 4 };
enum { thrd_busy = 1, thrd_error, thrd_nomem, thrd_success, thrd_timedout };

typedef unsigned long thrd_t;
typedef int (*thrd_start_t)(void *);

/* Calls the function with the argument in a new thread, on the processor that has the fewest;
   thrd_nomem where there is no memory for its stack, which lies in shared memory. Some eight write
   misses. */
int thrd_create(thrd_t *thread, thrd_start_t function, void *argument);

/* Waits until the thread has ended; thrd_error where it is this one, or none that may be joined. A
   read miss when it ends. */
int thrd_join(thrd_t thread, int *result);

/* Lets the memory of the thread be used again as soon as it ends. A write miss. */
int thrd_detach(thrd_t thread);

/* Ends this thread. Called by main it waits until all others have ended, and ends the program. */
_Noreturn void thrd_exit(int result);

thrd_t thrd_current(void);
int thrd_equal(thrd_t one, thrd_t other);

/* Lets the other threads of this processor run. */
void thrd_yield(void);

/* Lets them run once, and the time go by, as it is counted. */
int thrd_sleep(const struct timespec *time, struct timespec *left);

/* A mutex, in a line of its own; who came first is first. All zeros it is free, and plain. */
typedef struct {
    struct shasta_queue queue;
    void *holder;
    unsigned depth;
    int kind;
} __attribute__((aligned(64))) mtx_t;

int mtx_init(mtx_t *mutex, int kind);

/* A write miss where another node had the mutex last, none where this one had. */
int mtx_lock(mtx_t *mutex);

/* Takes it where it is free, else thrd_busy; the second tries until the time is past, as it is
   counted: thrd_timedout. */
int mtx_trylock(mtx_t *mutex);
int mtx_timedlock(mtx_t *restrict mutex, const struct timespec *restrict until);

/* No message where nobody waits, else a write miss. */
int mtx_unlock(mtx_t *mutex);
void mtx_destroy(mtx_t *mutex);

/* A condition, in a line of its own; who waited first goes on first. */
typedef struct {
    struct shasta_tickets tickets;
} __attribute__((aligned(64))) cnd_t;

int cnd_init(cnd_t *condition);

/* A write miss to come and a read miss to see the signal, beside those of the mutex. */
int cnd_wait(cnd_t *condition, mtx_t *mutex);

/* Waits until the time is past, as it is counted: thrd_timedout. It may come back without a signal. */
int cnd_timedwait(cnd_t *restrict condition, mtx_t *restrict mutex,
                  const struct timespec *restrict until);

/* A write miss where somebody waits, else a read miss. */
int cnd_signal(cnd_t *condition);
int cnd_broadcast(cnd_t *condition);
void cnd_destroy(cnd_t *condition);

typedef unsigned once_flag;
#define ONCE_FLAG_INIT 0

/* A read miss where it was called before. */
void call_once(once_flag *flag, void (*function)(void));

/* Up to 128 keys, by each of which every thread keeps a pointer in its thread-local data: no
   message. */
typedef unsigned tss_t;
typedef void (*tss_dtor_t)(void *);
#define TSS_DTOR_ITERATIONS 4

int tss_create(tss_t *key, tss_dtor_t at_end);
void *tss_get(tss_t key);
int tss_set(tss_t key, void *value);
void tss_delete(tss_t key);

#ifdef __cplusplus
}
#endif

#endif
