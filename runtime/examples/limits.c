/* What a program is told where there is no more memory: for malloc, and for threads. */
#include <errno.h>
#include <stdio.h>
#include <stdlib.h>
#include <string.h>
#include <threads.h>

enum { MOST = 100 };

static int nothing(void *unused)
{
    (void)unused;
    return 0;
}

int main(void)
{
    thrd_t threads[MOST];
    unsigned blocks = 0, made = 0;
    while (malloc(1000000) != 0)
        blocks += 1;
    printf("malloc gives 0 after %u blocks: %s\n", blocks,
           errno == ENOMEM ? "ENOMEM" : strerror(errno));
    int result = thrd_success;
    while ((result = thrd_create(&threads[made], nothing, 0)) == thrd_success)
        made += 1;
    printf("after %u threads: %s\n", made, result == thrd_nomem ? "thrd_nomem" : "another error");
    for (unsigned k = 0; k < made; k += 1)
        thrd_join(threads[k], 0);
    printf("after a join: %s\n",
           thrd_create(&threads[0], nothing, 0) == thrd_success ? "thrd_success" : "thrd_error");
    return 0;
}
