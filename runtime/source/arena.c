/* The arena whose size the link sets (`-Wl,--defsym=__heap_size=BYTES`), handed out from its
   start. */
#include "own.h"

#include <errno.h>
#include <stdint.h>
#include <string.h>
#include <unistd.h>

extern char __heap_start[];
extern char __heap_end[];

/* What lies after the end is all zeros. */
static struct {
    struct shasta_lock lock;
    char *end;
    char *least;             /* below it is memory that malloc has */
} arena = {.end = __heap_start, .least = __heap_start};

void *__shasta_more(size_t bytes, size_t multiple)
{
    char *given = 0;
    __shasta_enter(&arena.lock);
    size_t skipped = -(uintptr_t)arena.end % multiple;
    size_t left = (size_t)(__heap_end - arena.end);
    if (skipped <= left && bytes <= left - skipped) {
        given = arena.end + skipped;
        arena.end = arena.least = given + bytes;
    }
    shasta_leave(&arena.lock);
    return given;
}

/* Takes more, or gives back what sbrk took after malloc took memory the last time. */
void *sbrk(ptrdiff_t more)
{
    void *before = (void *)-1;
    __shasta_enter(&arena.lock);
    if (more <= __heap_end - arena.end && more >= arena.least - arena.end) {
        before = arena.end;
        arena.end += more;
        if (more < 0)
            memset(arena.end, 0, (size_t)-more);
    } else {
        errno = ENOMEM;
    }
    shasta_leave(&arena.lock);
    return before;
}
