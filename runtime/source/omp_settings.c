/* What the environment sets elsewhere: symbols at the link, whose addresses are numbers. */
#include "omp.h"

#define SYMBOL(name) extern const char name[] __attribute__((weak))
SYMBOL(OMP_NUM_THREADS);
SYMBOL(OMP_THREAD_LIMIT);
SYMBOL(OMP_MAX_ACTIVE_LEVELS);
SYMBOL(OMP_DYNAMIC);
SYMBOL(OMP_SCHEDULE);       /* 1 static, 2 dynamic, 3 guided, 4 auto */
SYMBOL(OMP_SCHEDULE_CHUNK);
SYMBOL(OMP_NUM_TEAMS);
SYMBOL(OMP_TEAMS_THREAD_LIMIT);

static unsigned or_else(const char *symbol, unsigned otherwise)
{
    return symbol != 0 ? (unsigned)(uintptr_t)symbol : otherwise;
}

struct settings __shasta_first_settings(void)
{
    return (struct settings){
        .threads = or_else(OMP_NUM_THREADS, own.count),
        .limit = or_else(OMP_THREAD_LIMIT, INT_MAX),
        .most_levels = or_else(OMP_MAX_ACTIVE_LEVELS, 1),
        .schedule = or_else(OMP_SCHEDULE, DYNAMIC),
        .chunk = or_else(OMP_SCHEDULE_CHUNK, 1),
        .teams = or_else(OMP_NUM_TEAMS, 0),
        .teams_limit = or_else(OMP_TEAMS_THREAD_LIMIT, 0),
        .is_dynamic = or_else(OMP_DYNAMIC, 0) != 0,
    };
}
