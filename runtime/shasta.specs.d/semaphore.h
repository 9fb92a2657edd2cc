/* POSIX semaphores, each in a line of its own. There are none with names. */
#ifndef SEMAPHORE_H
#define SEMAPHORE_H

#include <time.h>

#ifdef __cplusplus
extern "C" {
#endif

typedef struct {
    unsigned value;
} __attribute__((aligned(64))) sem_t;

#define SEM_VALUE_MAX 0x7fffffff

int sem_init(sem_t *semaphore, int is_shared, unsigned value);
int sem_destroy(sem_t *semaphore);

/* Waits until the value isn't 0, and takes 1 from it: a write miss where another node had it last. */
int sem_wait(sem_t *semaphore);

/* -1, and EAGAIN, where the value is 0; the second tries until the time is past, as it is counted, then
   ETIMEDOUT. */
int sem_trywait(sem_t *semaphore);
int sem_timedwait(sem_t *semaphore, const struct timespec *until);

int sem_post(sem_t *semaphore);
int sem_getvalue(sem_t *semaphore, int *value);

#ifdef __cplusplus
}
#endif

#endif
