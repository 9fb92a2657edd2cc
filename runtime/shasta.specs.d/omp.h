/* OpenMP's own calls, of its version 4.5 and, where GCC emits it, 5.0. There is no device, and nothing
   is cancelled. What the environment sets elsewhere are symbols at the link:
   `-Wl,--defsym=OMP_NUM_THREADS=8`; docs/C.md has them. */
#ifndef OMP_H
#define OMP_H

#include <stddef.h>
#include <stdint.h>

#include "shasta_queue.h"

#ifdef __cplusplus
extern "C" {
#define OMP_NOTHING throw()
#else
#define OMP_NOTHING
#endif

/* Locks, each in a line of its own; who came first is first. A nest lock belongs to a task. */
typedef struct {
    struct shasta_queue queue;
} __attribute__((aligned(64))) omp_lock_t;

typedef struct {
    struct shasta_queue queue;
    void *holder;
    int depth;
} __attribute__((aligned(64))) omp_nest_lock_t;

typedef enum omp_sync_hint_t {
    omp_sync_hint_none = 0,
    omp_lock_hint_none = omp_sync_hint_none,
    omp_sync_hint_uncontended = 1,
    omp_lock_hint_uncontended = omp_sync_hint_uncontended,
    omp_sync_hint_contended = 2,
    omp_lock_hint_contended = omp_sync_hint_contended,
    omp_sync_hint_nonspeculative = 4,
    omp_lock_hint_nonspeculative = omp_sync_hint_nonspeculative,
    omp_sync_hint_speculative = 8,
    omp_lock_hint_speculative = omp_sync_hint_speculative
} omp_sync_hint_t;
typedef omp_sync_hint_t omp_lock_hint_t;

void omp_init_lock(omp_lock_t *lock) OMP_NOTHING;
void omp_init_lock_with_hint(omp_lock_t *lock, omp_sync_hint_t hint) OMP_NOTHING;
void omp_destroy_lock(omp_lock_t *lock) OMP_NOTHING;
void omp_set_lock(omp_lock_t *lock) OMP_NOTHING;
void omp_unset_lock(omp_lock_t *lock) OMP_NOTHING;
int omp_test_lock(omp_lock_t *lock) OMP_NOTHING;

void omp_init_nest_lock(omp_nest_lock_t *lock) OMP_NOTHING;
void omp_init_nest_lock_with_hint(omp_nest_lock_t *lock, omp_sync_hint_t hint) OMP_NOTHING;
void omp_destroy_nest_lock(omp_nest_lock_t *lock) OMP_NOTHING;
void omp_set_nest_lock(omp_nest_lock_t *lock) OMP_NOTHING;
void omp_unset_nest_lock(omp_nest_lock_t *lock) OMP_NOTHING;
int omp_test_nest_lock(omp_nest_lock_t *lock) OMP_NOTHING;

/* Teams and their threads. */
int omp_get_num_threads(void) OMP_NOTHING;
int omp_get_thread_num(void) OMP_NOTHING;
int omp_get_max_threads(void) OMP_NOTHING;
void omp_set_num_threads(int count) OMP_NOTHING;
int omp_get_num_procs(void) OMP_NOTHING;
int omp_in_parallel(void) OMP_NOTHING;
int omp_get_level(void) OMP_NOTHING;
int omp_get_active_level(void) OMP_NOTHING;
int omp_get_ancestor_thread_num(int level) OMP_NOTHING;
int omp_get_team_size(int level) OMP_NOTHING;
int omp_get_thread_limit(void) OMP_NOTHING;
void omp_set_dynamic(int is_so) OMP_NOTHING;
int omp_get_dynamic(void) OMP_NOTHING;
void omp_set_nested(int is_so) OMP_NOTHING;
int omp_get_nested(void) OMP_NOTHING;
void omp_set_max_active_levels(int levels) OMP_NOTHING;
int omp_get_max_active_levels(void) OMP_NOTHING;
int omp_get_supported_active_levels(void) OMP_NOTHING;
int omp_in_final(void) OMP_NOTHING;
int omp_get_cancellation(void) OMP_NOTHING;
int omp_get_max_task_priority(void) OMP_NOTHING;
int omp_get_num_teams(void) OMP_NOTHING;
int omp_get_team_num(void) OMP_NOTHING;
void omp_set_num_teams(int count) OMP_NOTHING;
int omp_get_max_teams(void) OMP_NOTHING;
void omp_set_teams_thread_limit(int limit) OMP_NOTHING;
int omp_get_teams_thread_limit(void) OMP_NOTHING;

/* The schedule of loops that leave it open. */
typedef enum omp_sched_t {
    omp_sched_static = 1,
    omp_sched_dynamic = 2,
    omp_sched_guided = 3,
    omp_sched_auto = 4,
    omp_sched_monotonic = (int)0x80000000u
} omp_sched_t;

void omp_set_schedule(omp_sched_t kind, int chunk) OMP_NOTHING;
void omp_get_schedule(omp_sched_t *kind, int *chunk) OMP_NOTHING;

/* The time, as it is counted; it goes on by a millisecond with each look. */
double omp_get_wtime(void) OMP_NOTHING;
double omp_get_wtick(void) OMP_NOTHING;

/* There is no device but the host, and threads aren't bound to places. */
typedef enum omp_proc_bind_t {
    omp_proc_bind_false = 0,
    omp_proc_bind_true = 1,
    omp_proc_bind_primary = 2,
    omp_proc_bind_master = 2,
    omp_proc_bind_close = 3,
    omp_proc_bind_spread = 4
} omp_proc_bind_t;

omp_proc_bind_t omp_get_proc_bind(void) OMP_NOTHING;
int omp_get_num_places(void) OMP_NOTHING;
int omp_get_place_num_procs(int place) OMP_NOTHING;
void omp_get_place_proc_ids(int place, int *numbers) OMP_NOTHING;
int omp_get_place_num(void) OMP_NOTHING;
int omp_get_partition_num_places(void) OMP_NOTHING;
void omp_get_partition_place_nums(int *places) OMP_NOTHING;
int omp_get_num_devices(void) OMP_NOTHING;
int omp_get_default_device(void) OMP_NOTHING;
void omp_set_default_device(int device) OMP_NOTHING;
int omp_get_initial_device(void) OMP_NOTHING;
int omp_get_device_num(void) OMP_NOTHING;
int omp_is_initial_device(void) OMP_NOTHING;
typedef enum omp_pause_resource_t {
    omp_pause_soft = 1,
    omp_pause_hard = 2
} omp_pause_resource_t;
int omp_pause_resource(omp_pause_resource_t kind, int device) OMP_NOTHING;
int omp_pause_resource_all(omp_pause_resource_t kind) OMP_NOTHING;
void omp_display_env(int is_verbose) OMP_NOTHING;

/* Tasks. */
typedef struct omp_depend_t {
    void *words[2];
} omp_depend_t;

typedef enum omp_event_handle_t {
    omp_event_handle_most = (int)0x7fffffff
} omp_event_handle_t;
void omp_fulfill_event(omp_event_handle_t event) OMP_NOTHING;

/* Memory. All of it is of one kind. */
typedef uintptr_t omp_memspace_handle_t;
enum {
    omp_default_mem_space = 0,
    omp_large_cap_mem_space = 1,
    omp_const_mem_space = 2,
    omp_high_bw_mem_space = 3,
    omp_low_lat_mem_space = 4
};

typedef enum omp_allocator_handle_t {
    omp_null_allocator = 0,
    omp_default_mem_alloc = 1,
    omp_large_cap_mem_alloc = 2,
    omp_const_mem_alloc = 3,
    omp_high_bw_mem_alloc = 4,
    omp_low_lat_mem_alloc = 5,
    omp_cgroup_mem_alloc = 6,
    omp_pteam_mem_alloc = 7,
    omp_thread_mem_alloc = 8,
    omp_allocator_handle_most = (int)0x7fffffff
} omp_allocator_handle_t;

typedef enum omp_alloctrait_key_t {
    omp_atk_sync_hint = 1,
    omp_atk_alignment = 2,
    omp_atk_access = 3,
    omp_atk_pool_size = 4,
    omp_atk_fallback = 5,
    omp_atk_fb_data = 6,
    omp_atk_pinned = 7,
    omp_atk_partition = 8
} omp_alloctrait_key_t;

typedef enum omp_alloctrait_value_t {
    omp_atv_default = -1,
    omp_atv_false = 0,
    omp_atv_true = 1,
    omp_atv_contended = 3,
    omp_atv_uncontended = 4,
    omp_atv_serialized = 5,
    omp_atv_sequential = omp_atv_serialized,
    omp_atv_private = 6,
    omp_atv_all = 7,
    omp_atv_thread = 8,
    omp_atv_pteam = 9,
    omp_atv_cgroup = 10,
    omp_atv_default_mem_fb = 11,
    omp_atv_null_fb = 12,
    omp_atv_abort_fb = 13,
    omp_atv_allocator_fb = 14,
    omp_atv_environment = 15,
    omp_atv_nearest = 16,
    omp_atv_blocked = 17,
    omp_atv_interleaved = 18
} omp_alloctrait_value_t;

typedef struct omp_alloctrait_t {
    omp_alloctrait_key_t key;
    uintptr_t value;
} omp_alloctrait_t;

omp_allocator_handle_t omp_init_allocator(omp_memspace_handle_t space, int count,
                                          const omp_alloctrait_t traits[]) OMP_NOTHING;
void omp_destroy_allocator(omp_allocator_handle_t allocator) OMP_NOTHING;
void omp_set_default_allocator(omp_allocator_handle_t allocator) OMP_NOTHING;
omp_allocator_handle_t omp_get_default_allocator(void) OMP_NOTHING;

#ifdef __cplusplus
#define OMP_DEFAULT = omp_null_allocator
#else
#define OMP_DEFAULT
#endif

void *omp_alloc(size_t bytes, omp_allocator_handle_t allocator OMP_DEFAULT) OMP_NOTHING;
void *omp_aligned_alloc(size_t multiple, size_t bytes,
                        omp_allocator_handle_t allocator OMP_DEFAULT) OMP_NOTHING;
void *omp_calloc(size_t count, size_t bytes,
                 omp_allocator_handle_t allocator OMP_DEFAULT) OMP_NOTHING;
void *omp_aligned_calloc(size_t multiple, size_t count, size_t bytes,
                         omp_allocator_handle_t allocator OMP_DEFAULT) OMP_NOTHING;
void *omp_realloc(void *block, size_t bytes, omp_allocator_handle_t allocator OMP_DEFAULT,
                  omp_allocator_handle_t free_allocator OMP_DEFAULT) OMP_NOTHING;
void omp_free(void *block, omp_allocator_handle_t allocator OMP_DEFAULT) OMP_NOTHING;

#undef OMP_DEFAULT
#undef OMP_NOTHING

#ifdef __cplusplus
}
#endif

#endif
