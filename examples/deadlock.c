/* A deadlock, for docs/TUTORIAL.md: two threads take two mutexes, each in another order. A barrier before
   the second mutex makes sure that both hold their first. */
#include <shasta.h>
#include <stdio.h>
#include <threads.h>

static mtx_t accounts, journal;
static struct shasta_barrier both;

static int pay(void *unused)
{
    (void)unused;
    mtx_lock(&accounts);
    shasta_meet(&both, 2);
    mtx_lock(&journal); /* held by book */
    puts("paid");
    mtx_unlock(&journal);
    mtx_unlock(&accounts);
    return 0;
}

static int book(void *unused)
{
    (void)unused;
    mtx_lock(&journal);
    shasta_meet(&both, 2);
    mtx_lock(&accounts); /* held by pay */
    puts("booked");
    mtx_unlock(&accounts);
    mtx_unlock(&journal);
    return 0;
}

int main(void)
{
    thrd_t payer, booker;
    mtx_init(&accounts, mtx_plain);
    mtx_init(&journal, mtx_plain);
    thrd_create(&payer, pay, 0);
    thrd_create(&booker, book, 0);
    thrd_join(payer, 0);
    thrd_join(booker, 0);
    puts("done");
    return 0;
}
