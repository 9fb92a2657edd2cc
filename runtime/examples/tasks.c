/* OpenMP's tasks: their groups, dependences, loops and reductions. It prints the same for each number of
   processors. */
#include <omp.h>
#include <stdio.h>

enum { SIZE = 60, THREADS = 5 };

static unsigned wrong;

static void wants(int is_so, const char *what)
{
    if (is_so)
        return;
    printf("wrong: %s\n", what);
#pragma omp atomic
    wrong += 1;
}

static unsigned fibonacci(unsigned n)
{
    unsigned one, other;
    if (n < 2)
        return n;
#pragma omp task shared(one) if (n > 5)
    one = fibonacci(n - 1);
#pragma omp task shared(other) final(n < 4)
    other = fibonacci(n - 2);
#pragma omp taskwait
    return one + other;
}

static void recursion(void)
{
    unsigned result = 0;
#pragma omp parallel num_threads(THREADS)
#pragma omp single
    result = fibonacci(12);
    wants(result == 144, "tasks in tasks");
    wants(fibonacci(8) == 21, "tasks outside of all regions");
}

static void groups(void)
{
    unsigned sum = 0, late = 0;
#pragma omp parallel num_threads(THREADS)
#pragma omp single
    {
#pragma omp taskgroup
        for (unsigned k = 1; k <= SIZE; k += 1)
#pragma omp task firstprivate(k) shared(sum)
        {
#pragma omp task shared(sum)
#pragma omp atomic
            sum += k;
#pragma omp taskyield
        }
        wants(sum == SIZE * (SIZE + 1) / 2, "a group with its children's children");
#pragma omp task shared(late)
#pragma omp atomic
        late += 1;
    }
    wants(late == 1, "a task at a barrier");
}

static void dependences(void)
{
    static unsigned line[SIZE];
    unsigned first = 0, second = 0, both = 0, after = 0;
#pragma omp parallel num_threads(THREADS)
#pragma omp single
    {
        for (unsigned k = 1; k < SIZE; k += 1)
#pragma omp task depend(in : line[k - 1]) depend(out : line[k])
            line[k] = line[k - 1] + 1;
#pragma omp task depend(out : first)
        first = 1;
#pragma omp task depend(out : second)
        second = 2;
#pragma omp task depend(in : first, second) shared(both)
        both = first + second;
#pragma omp task depend(inout : first)
        first += 10;
#pragma omp taskwait depend(in : first)
        after = first;
#pragma omp task depend(in : second) if (0)
        wants(second == 2, "a task at once, after one that it depends on");
    }
    wants(line[SIZE - 1] == SIZE - 1, "a chain");
    wants(both == 3 && after == 11, "two that one waits for");
}

static void loops(void)
{
    unsigned char done[SIZE] = {0}, lengths[57] = {0}, length = 0;
    unsigned sum = 0, total = 0, parts = 0;
    static volatile unsigned none; /* 0, as the compiler can't know */
#pragma omp parallel num_threads(THREADS)
#pragma omp single
    {
#pragma omp taskloop num_tasks(strict : 9) firstprivate(length)
        for (int k = 0; k < 57; k += 1) {
            length += 1;
            lengths[k + 1 - length] = length;
        }
#pragma omp taskloop grainsize(7)
        for (int k = 0; k < SIZE; k += 1)
            done[k] += 1;
#pragma omp taskloop num_tasks(4) collapse(2)
        for (int k = 0; k < 6; k += 1)
            for (unsigned long long j = 0; j < SIZE / 6; j += 1)
                done[k * (SIZE / 6) + (int)j] += 1;
#pragma omp taskloop reduction(+ : sum)
        for (unsigned k = 0; k < SIZE; k += 1)
            sum += k;
#pragma omp taskloop reduction(+ : sum)
        for (unsigned k = 0; k < none; k += 1)
            sum += k;
#pragma omp taskgroup task_reduction(+ : total)
        for (unsigned k = 0; k < SIZE; k += 1)
#pragma omp task in_reduction(+ : total) firstprivate(k)
            total += k;
    }
    for (unsigned k = 0; k < SIZE; k += 1)
        wants(done[k] == 2, "loops of tasks");
    wants(lengths[14] == 7 && lengths[21] == 6 && lengths[51] == 6, "tasks of like lengths");
    wants(sum == SIZE * (SIZE - 1) / 2, "a reduction of a loop of tasks");
    wants(total == SIZE * (SIZE - 1) / 2, "a reduction of tasks");
#pragma omp parallel reduction(task, + : parts) num_threads(THREADS)
    {
        parts += 1;
#pragma omp task in_reduction(+ : parts)
        parts += 10;
    }
    wants(parts == 11 * THREADS, "a region's reduction with tasks");
    sum = 0;
#pragma omp parallel num_threads(THREADS)
#pragma omp for reduction(task, + : sum)
    for (unsigned k = 0; k < SIZE; k += 1)
#pragma omp task in_reduction(+ : sum) firstprivate(k)
        sum += k;
    wants(sum == SIZE * (SIZE - 1) / 2, "a loop's reduction with tasks");
}

static void events(void)
{
    omp_event_handle_t event = 0;
    unsigned seen = 0;
#pragma omp parallel num_threads(THREADS)
#pragma omp single
    {
#pragma omp task detach(event) shared(seen)
        {
#pragma omp atomic
            seen += 1;
        }
#pragma omp task firstprivate(event)
        omp_fulfill_event(event);
#pragma omp taskwait
        wants(seen == 1, "an event");
    }
}

static void teams(void)
{
    unsigned count = 0, threads = 0;
#pragma omp teams num_teams(3) thread_limit(2) reduction(+ : count, threads)
    {
        count += omp_get_num_teams() == 3 && omp_get_team_num() < 3;
#pragma omp parallel reduction(+ : threads) num_threads(2)
        threads += 1;
    }
    wants(count == 3 && threads == 6, "teams");
}

int main(void)
{
    recursion();
    groups();
    dependences();
    loops();
    events();
    teams();
    printf("tasks, wrong %u\n", wrong);
    return 0;
}
