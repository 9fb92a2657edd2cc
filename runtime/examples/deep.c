/* Calls itself until the stack is used up: the processor ends by `access`. With a larger stack,
   `-Wl,--defsym=__stack_size=0x200000`, it comes back. */
#include <stdio.h>
#include <string.h>

enum { LEVELS = 900 };

static __attribute__((noinline)) unsigned go_down(unsigned level, char *above)
{
    char room[1000];
    if (level == LEVELS)
        return 0;
    memset(room, 1, sizeof room);
    above[level] = 2;
    unsigned below = go_down(level + 1, room);
    return below + (room[level] == 1) + (room[level + 1] == 2);
}

int main(void)
{
    char room[1000];
    puts("going down");
    printf("came back from %u\n", go_down(0, room));
    return 0;
}
