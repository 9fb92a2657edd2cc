/* The end of a program without its destructors and what atexit was given. */
#include <stdlib.h>

enum { MOST = 32 };

static void (*functions[MOST])(void);
static unsigned count;

int at_quick_exit(void (*function)(void))
{
    unsigned number = __atomic_fetch_add(&count, 1, __ATOMIC_RELAXED);
    if (number >= MOST) {
        __atomic_fetch_sub(&count, 1, __ATOMIC_RELAXED);
        return 1;
    }
    functions[number] = function;
    return 0;
}

_Noreturn void quick_exit(int code)
{
    while (count != 0)
        functions[--count]();
    _Exit(code);
}
