/* A processor other than 0 ends the program, where there is one; all others wait, or work, and end with
   it. */
#include "shasta_short.h"

#include <stdio.h>

static struct lock held;
static struct barrier all;

static void work(void *unused)
{
    (void)unused;
    if (processor() == 0)
        enter(&held);
    meet(&all, processors());
    if (processor() == processors() / 2) {
        printf("enough\n");
        exit(3);
    }
    if (processor() % 2 == 0)
        meet(&all, processors());
    else
        enter(&held);
}

int main(void)
{
    parallel(work, 0);
    printf("not reached\n");
    return 0;
}
