/* POSIX threads, many to a processor, which takes turns with its threads where one of them waits, and
   interrupts none; as those of <threads.h>. What isn't here there isn't: cancelling, signals,
   scheduling, and what is shared by processes. The time of what has a time-out is counted, since there
   is no clock. docs/C.md says what calls cost. */
#ifndef PTHREAD_H
#define PTHREAD_H

#include <sched.h>
#include <stddef.h>
#include <time.h>

#include "shasta_queue.h"

#ifdef __cplusplus
extern "C" {
#endif

#define PTHREAD_IN_OWN_LINE __attribute__((aligned(64)))

/* Threads. */
typedef unsigned long pthread_t;

typedef struct {
    size_t stack_bytes;      /* 0: as the link says */
    int is_detached;
} pthread_attr_t;

enum { PTHREAD_CREATE_JOINABLE, PTHREAD_CREATE_DETACHED };
#define PTHREAD_STACK_MIN 4096

int pthread_create(pthread_t *thread, const pthread_attr_t *attributes, void *(*function)(void *),
                   void *argument);
int pthread_join(pthread_t thread, void **result);
int pthread_detach(pthread_t thread);
void pthread_exit(void *result) __attribute__((noreturn));
pthread_t pthread_self(void);
int pthread_equal(pthread_t one, pthread_t other);
int pthread_yield(void);

int pthread_attr_init(pthread_attr_t *attributes);
int pthread_attr_destroy(pthread_attr_t *attributes);
int pthread_attr_setdetachstate(pthread_attr_t *attributes, int state);
int pthread_attr_getdetachstate(const pthread_attr_t *attributes, int *state);
int pthread_attr_setstacksize(pthread_attr_t *attributes, size_t bytes);
int pthread_attr_getstacksize(const pthread_attr_t *attributes, size_t *bytes);

/* What is done once, and what each thread keeps for itself. */
typedef unsigned pthread_once_t;
#define PTHREAD_ONCE_INIT 0

int pthread_once(pthread_once_t *once, void (*function)(void));

typedef unsigned pthread_key_t;
#define PTHREAD_KEYS_MAX 128
#define PTHREAD_DESTRUCTOR_ITERATIONS 4

int pthread_key_create(pthread_key_t *key, void (*at_end)(void *));
int pthread_key_delete(pthread_key_t key);
int pthread_setspecific(pthread_key_t key, const void *value);
void *pthread_getspecific(pthread_key_t key);

/* Mutexes, each in a line of its own; who came first is first. */
typedef struct {
    int kind;
} pthread_mutexattr_t;

enum {
    PTHREAD_MUTEX_NORMAL,
    PTHREAD_MUTEX_RECURSIVE,
    PTHREAD_MUTEX_ERRORCHECK,
    PTHREAD_MUTEX_DEFAULT = PTHREAD_MUTEX_NORMAL
};

typedef struct {
    struct shasta_queue queue;
    void *holder;            /* of a mutex that isn't normal */
    unsigned depth;
    int kind;
} PTHREAD_IN_OWN_LINE pthread_mutex_t;

#define PTHREAD_MUTEX_INITIALIZER {{0, 0}, 0, 0, PTHREAD_MUTEX_NORMAL}
#define PTHREAD_RECURSIVE_MUTEX_INITIALIZER {{0, 0}, 0, 0, PTHREAD_MUTEX_RECURSIVE}
#define PTHREAD_ERRORCHECK_MUTEX_INITIALIZER {{0, 0}, 0, 0, PTHREAD_MUTEX_ERRORCHECK}

int pthread_mutex_init(pthread_mutex_t *mutex, const pthread_mutexattr_t *attributes);
int pthread_mutex_destroy(pthread_mutex_t *mutex);
int pthread_mutex_lock(pthread_mutex_t *mutex);
int pthread_mutex_trylock(pthread_mutex_t *mutex);
int pthread_mutex_timedlock(pthread_mutex_t *mutex, const struct timespec *until);
int pthread_mutex_unlock(pthread_mutex_t *mutex);

int pthread_mutexattr_init(pthread_mutexattr_t *attributes);
int pthread_mutexattr_destroy(pthread_mutexattr_t *attributes);
int pthread_mutexattr_settype(pthread_mutexattr_t *attributes, int kind);
int pthread_mutexattr_gettype(const pthread_mutexattr_t *attributes, int *kind);

/* Conditions; who waited first goes on first. */
typedef struct {
    clockid_t clock;
} pthread_condattr_t;

typedef struct {
    struct shasta_tickets tickets;
} PTHREAD_IN_OWN_LINE pthread_cond_t;

#define PTHREAD_COND_INITIALIZER {{0, 0, 0, 0}}

int pthread_cond_init(pthread_cond_t *condition, const pthread_condattr_t *attributes);
int pthread_cond_destroy(pthread_cond_t *condition);
int pthread_cond_wait(pthread_cond_t *condition, pthread_mutex_t *mutex);
int pthread_cond_timedwait(pthread_cond_t *condition, pthread_mutex_t *mutex,
                           const struct timespec *until);
int pthread_cond_signal(pthread_cond_t *condition);
int pthread_cond_broadcast(pthread_cond_t *condition);

int pthread_condattr_init(pthread_condattr_t *attributes);
int pthread_condattr_destroy(pthread_condattr_t *attributes);
int pthread_condattr_setclock(pthread_condattr_t *attributes, clockid_t clock);
int pthread_condattr_getclock(const pthread_condattr_t *attributes, clockid_t *clock);

/* Barriers. */
typedef struct {
    int unused;
} pthread_barrierattr_t;

typedef struct {
    unsigned count PTHREAD_IN_OWN_LINE;
    unsigned arrived;
    unsigned round PTHREAD_IN_OWN_LINE;
} pthread_barrier_t;

#define PTHREAD_BARRIER_SERIAL_THREAD (-1)

int pthread_barrier_init(pthread_barrier_t *barrier, const pthread_barrierattr_t *attributes,
                         unsigned count);
int pthread_barrier_destroy(pthread_barrier_t *barrier);
int pthread_barrier_wait(pthread_barrier_t *barrier);

int pthread_barrierattr_init(pthread_barrierattr_t *attributes);
int pthread_barrierattr_destroy(pthread_barrierattr_t *attributes);

/* Locks for many who read, or one who writes; who writes comes before those who come to read later. */
typedef struct {
    int unused;
} pthread_rwlockattr_t;

typedef struct {
    unsigned readers;        /* who read, and the highest bit where one writes */
    unsigned writers;        /* who wait to write */
} PTHREAD_IN_OWN_LINE pthread_rwlock_t;

#define PTHREAD_RWLOCK_INITIALIZER {0, 0}

int pthread_rwlock_init(pthread_rwlock_t *lock, const pthread_rwlockattr_t *attributes);
int pthread_rwlock_destroy(pthread_rwlock_t *lock);
int pthread_rwlock_rdlock(pthread_rwlock_t *lock);
int pthread_rwlock_tryrdlock(pthread_rwlock_t *lock);
int pthread_rwlock_timedrdlock(pthread_rwlock_t *lock, const struct timespec *until);
int pthread_rwlock_wrlock(pthread_rwlock_t *lock);
int pthread_rwlock_trywrlock(pthread_rwlock_t *lock);
int pthread_rwlock_timedwrlock(pthread_rwlock_t *lock, const struct timespec *until);
int pthread_rwlock_unlock(pthread_rwlock_t *lock);

int pthread_rwlockattr_init(pthread_rwlockattr_t *attributes);
int pthread_rwlockattr_destroy(pthread_rwlockattr_t *attributes);

/* Spin locks. */
typedef struct {
    unsigned is_taken;
} PTHREAD_IN_OWN_LINE pthread_spinlock_t;

enum { PTHREAD_PROCESS_PRIVATE };

int pthread_spin_init(pthread_spinlock_t *lock, int is_shared);
int pthread_spin_destroy(pthread_spinlock_t *lock);
int pthread_spin_lock(pthread_spinlock_t *lock);
int pthread_spin_trylock(pthread_spinlock_t *lock);
int pthread_spin_unlock(pthread_spinlock_t *lock);

#ifdef __cplusplus
}
#endif

#endif
