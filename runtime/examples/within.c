/* `parallel` within `parallel` is refused. */
#include "shasta_short.h"

static void nothing(void *unused)
{
    (void)unused;
}

static void work(void *unused)
{
    if (processor() == 0)
        parallel(nothing, unused);
}

int main(void)
{
    parallel(work, 0);
    return 0;
}
