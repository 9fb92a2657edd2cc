/* OpenMP's loops, sections and singles: each schedule, ordered, and places of loops in one another. It
   prints the same for each number of processors. */
#include <omp.h>
#include <stdio.h>
#include <string.h>

enum { SIZE = 100, THREADS = 6 };

static unsigned wrong;
static unsigned char done[SIZE];

static void wants(int is_so, const char *what)
{
    if (is_so)
        return;
    printf("wrong: %s\n", what);
#pragma omp atomic
    wrong += 1;
}

static void all_once(const char *what)
{
    for (unsigned k = 0; k < SIZE; k += 1)
        if (done[k] != 1) {
            wants(0, what);
            break;
        }
    memset(done, 0, sizeof done);
}

static void schedules(void)
{
#pragma omp parallel for num_threads(THREADS)
    for (int k = 0; k < SIZE; k += 1)
        done[k] += 1;
    all_once("static");
#pragma omp parallel for schedule(dynamic, 7) num_threads(THREADS)
    for (int k = SIZE - 1; k >= 0; k -= 1)
        done[k] += 1;
    all_once("dynamic");
#pragma omp parallel for schedule(guided) num_threads(THREADS)
    for (unsigned long long k = 0; k < SIZE; k += 1)
        done[k] += 1;
    all_once("guided");
#pragma omp parallel for schedule(monotonic : dynamic) num_threads(THREADS)
    for (long long k = 2 * SIZE - 2; k >= 0; k -= 2)
        done[k / 2] += 1;
    all_once("dynamic, 64 bits, down");
    omp_set_schedule(omp_sched_guided, 3);
#pragma omp parallel for schedule(runtime) num_threads(THREADS)
    for (int k = 0; k < SIZE; k += 1)
        done[k] += 1;
    all_once("runtime");
#pragma omp parallel for collapse(2) schedule(dynamic) num_threads(THREADS)
    for (int k = 0; k < SIZE / 10; k += 1)
        for (int j = 0; j < 10; j += 1)
            done[10 * k + j] += 1;
    all_once("two loops as one");
#pragma omp parallel num_threads(THREADS)
    for (unsigned turn = 0; turn < 40; turn += 1) {
#pragma omp for schedule(dynamic) nowait
        for (int k = 0; k < 8; k += 1)
#pragma omp atomic
            done[k] += 1;
    }
    for (unsigned k = 0; k < 8; k += 1)
        wants(done[k] == 40, "loops ahead of each other");
    memset(done, 0, sizeof done);
}

static void ordered(void)
{
    unsigned next = 0;
#pragma omp parallel for ordered schedule(dynamic, 3) num_threads(THREADS)
    for (unsigned k = 0; k < SIZE; k += 1)
#pragma omp ordered
        next += next == k;
    wants(next == SIZE, "ordered, dynamic");
    next = 0;
#pragma omp parallel for ordered schedule(static, 4) num_threads(THREADS)
    for (unsigned k = 0; k < SIZE; k += 1)
        if (k % 3 != 0)
#pragma omp ordered
            next = next < k ? k : SIZE;
    wants(next == SIZE - 2 || next == SIZE - 1, "ordered, static");
    static unsigned table[10][10];
#pragma omp parallel for ordered(2) num_threads(THREADS)
    for (int k = 1; k < 10; k += 1)
        for (int j = 1; j < 10; j += 1) {
#pragma omp ordered depend(sink : k - 1, j) depend(sink : k, j - 1)
            table[k][j] = 1 + table[k - 1][j] + table[k][j - 1];
#pragma omp ordered depend(source)
        }
    wants(table[9][9] == 48619, "places of two loops");
}

static void sections(void)
{
    unsigned sum = 0, singles = 0, seen = 0, number = 0, most = 0;
    double last = 0;
#pragma omp parallel sections reduction(+ : sum) num_threads(THREADS)
    {
        sum += 1;
#pragma omp section
        sum += 10;
#pragma omp section
        sum += 100;
    }
    wants(sum == 111, "sections");
#pragma omp parallel num_threads(THREADS) private(number) reduction(+ : seen) reduction(max : most)
    {
#pragma omp single
        singles += 1;
#pragma omp single copyprivate(number)
        number = 41;
        seen += number == 41;
        most = (unsigned)omp_get_thread_num();
#pragma omp master
        singles += 1;
#pragma omp barrier
#pragma omp critical(named)
        singles += 1;
#pragma omp barrier
#pragma omp critical
        singles += 1;
    }
    wants(singles == 2 + 2 * THREADS && seen == THREADS && most == THREADS - 1, "singles");
#pragma omp parallel for lastprivate(last) num_threads(THREADS)
    for (int k = 0; k < SIZE; k += 1)
        last = k / 2.0;
    wants(last == (SIZE - 1) / 2.0, "lastprivate");
}

static unsigned kept;
#pragma omp threadprivate(kept)

static void regions(void)
{
    unsigned inner = 0;
    omp_set_dynamic(0);
#pragma omp parallel num_threads(THREADS)
    kept = 100 + (unsigned)omp_get_thread_num();
#pragma omp parallel num_threads(THREADS)
    wants(kept == 100 + (unsigned)omp_get_thread_num(), "threadprivate stays");
    kept = 7;
#pragma omp parallel copyin(kept) num_threads(THREADS)
    wants(kept == 7, "copyin");
    omp_set_max_active_levels(2);
#pragma omp parallel num_threads(3)
#pragma omp parallel num_threads(2)
    {
        if (omp_get_level() == 2 && omp_get_team_size(1) == 3 && omp_get_num_threads() == 2)
#pragma omp atomic
            inner += 1;
#pragma omp barrier
        wants(omp_get_ancestor_thread_num(2) == omp_get_thread_num(), "ancestors");
    }
    wants(inner == 6, "a region in a region");
#pragma omp parallel if (0)
    wants(omp_get_num_threads() == 1 && omp_get_level() == 1, "if");
    wants(omp_get_level() == 0 && omp_get_num_threads() == 1, "outside");
}

static void locks(void)
{
    static omp_lock_t lock;
    static omp_nest_lock_t nest;
    unsigned count = 0, nested = 0;
    omp_init_lock(&lock);
    omp_init_nest_lock(&nest);
#pragma omp parallel num_threads(THREADS)
    {
        omp_set_lock(&lock);
        count += 1;
        omp_unset_lock(&lock);
        omp_set_nest_lock(&nest);
        wants(omp_test_nest_lock(&nest) == 2, "nest lock");
        nested += 1;
        omp_unset_nest_lock(&nest);
        omp_unset_nest_lock(&nest);
        while (!omp_test_lock(&lock))
            ;
        count += 1;
        omp_unset_lock(&lock);
    }
    wants(count == 2 * THREADS && nested == THREADS, "locks");
    double start = omp_get_wtime();
    while (omp_get_wtime() < start + 0.1)
        ;
}

int main(void)
{
    schedules();
    ordered();
    sections();
    regions();
    locks();
    printf("loops, wrong %u\n", wrong);
    return 0;
}
