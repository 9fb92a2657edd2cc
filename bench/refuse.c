/* Refuses one allocation of a program: that whose number, from 1 on, is in REFUSE. Then it makes
   the file that REFUSED names. Where THREADS is 0, it refuses each thread.

       cc -shared -fPIC -o refuse.so refuse.c -ldl
       REFUSE=7 REFUSED=told LD_PRELOAD=./refuse.so PROGRAM .. */
#define _GNU_SOURCE
#include <dlfcn.h>
#include <errno.h>
#include <fcntl.h>
#include <pthread.h>
#include <stdatomic.h>
#include <stddef.h>
#include <stdlib.h>
#include <unistd.h>

static atomic_long count;
static long refused;
static const char *told;

__attribute__((constructor)) static void read_number(void) {
    const char *number = getenv("REFUSE");
    told = getenv("REFUSED");
    refused = number ? atol(number) : 0;
}

static int is_refused(void) {
    if (refused == 0 || atomic_fetch_add(&count, 1) + 1 != refused)
        return 0;
    if (told)
        close(open(told, O_CREAT | O_WRONLY, 0600));
    return 1;
}

void *malloc(size_t size) {
    static void *(*next)(size_t);
    if (!next)
        next = (void *(*)(size_t))dlsym(RTLD_NEXT, "malloc");
    return is_refused() ? NULL : next(size);
}

void *realloc(void *old, size_t size) {
    static void *(*next)(void *, size_t);
    if (!next)
        next = (void *(*)(void *, size_t))dlsym(RTLD_NEXT, "realloc");
    return is_refused() ? NULL : next(old, size);
}

typedef int create(pthread_t *, const pthread_attr_t *, void *(*)(void *), void *);

int pthread_create(pthread_t *thread, const pthread_attr_t *how, void *(*does)(void *),
                   void *with) {
    const char *threads = getenv("THREADS");
    if (threads && atol(threads) == 0)
        return EAGAIN;
    return ((create *)dlsym(RTLD_NEXT, "pthread_create"))(thread, how, does, with);
}
