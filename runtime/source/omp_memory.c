/* The allocators of <omp.h>. All memory is of one kind; what an allocator has of its own is how much it
   hands out, at which multiples, and what comes where there is no more. */
#include "omp.h"

#include "../shasta.specs.d/omp.h"

#include <malloc.h>
#include <string.h>

struct allocator {
    uintptr_t most;          /* bytes in all */
    uintptr_t taken;
    uintptr_t multiple;
    uintptr_t otherwise;     /* omp_atv_default_mem_fb and its kin */
    omp_allocator_handle_t other;
};

/* What stands before each block. */
struct head {
    void *block;
    size_t bytes;            /* that were asked for */
    size_t taken;            /* of its allocator */
    struct allocator *allocator;
};

/* One of those that a program makes; 0 of those that there are. */
static struct allocator *made(omp_allocator_handle_t allocator)
{
    return (uintptr_t)allocator > omp_thread_mem_alloc ? (struct allocator *)(uintptr_t)allocator : 0;
}

static bool set_trait(struct allocator *allocator, const omp_alloctrait_t *trait)
{
    bool is_default = trait->value == (uintptr_t)omp_atv_default;
    switch (trait->key) {
    case omp_atk_alignment:
        allocator->multiple = is_default ? 1 : trait->value;
        return allocator->multiple != 0 && (allocator->multiple & (allocator->multiple - 1)) == 0;
    case omp_atk_pool_size:
        allocator->most = is_default ? UINTPTR_MAX : trait->value;
        return true;
    case omp_atk_fallback:
        allocator->otherwise = is_default ? (uintptr_t)omp_atv_default_mem_fb : trait->value;
        return allocator->otherwise >= omp_atv_default_mem_fb &&
               allocator->otherwise <= omp_atv_allocator_fb;
    case omp_atk_fb_data:
        allocator->other = (omp_allocator_handle_t)trait->value;
        return true;
    case omp_atk_pinned:
        return trait->value != omp_atv_true;
    default:
        return true;
    }
}

omp_allocator_handle_t omp_init_allocator(omp_memspace_handle_t space, int count,
                                          const omp_alloctrait_t traits[])
{
    struct allocator *allocator = malloc(sizeof *allocator);
    (void)space;
    if (allocator == 0)
        return omp_null_allocator;
    *allocator = (struct allocator){UINTPTR_MAX, 0, 1, omp_atv_default_mem_fb, omp_null_allocator};
    for (int k = 0; k < count; k += 1)
        if (!set_trait(allocator, &traits[k])) {
            free(allocator);
            return omp_null_allocator;
        }
    return (omp_allocator_handle_t)(uintptr_t)allocator;
}

void omp_destroy_allocator(omp_allocator_handle_t allocator)
{
    free(made(allocator));
}

void omp_set_default_allocator(omp_allocator_handle_t allocator)
{
    __shasta_own_settings(__shasta_task())->allocator = (uintptr_t)allocator;
}

omp_allocator_handle_t omp_get_default_allocator(void)
{
    uintptr_t allocator = __shasta_task()->settings->allocator;
    return allocator != 0 ? (omp_allocator_handle_t)allocator : omp_default_mem_alloc;
}

/* Takes bytes of what an allocator may hand out, and says whether there were so many. */
static bool take(struct allocator *allocator, size_t bytes)
{
    uintptr_t before = __atomic_load_n(&allocator->taken, __ATOMIC_RELAXED);
    do
        if (before > allocator->most || bytes > allocator->most - before)
            return false;
    while (!__atomic_compare_exchange_n(&allocator->taken, &before, before + bytes, 0,
                                        __ATOMIC_RELAXED, __ATOMIC_RELAXED));
    return true;
}

static void give_back(struct allocator *allocator, size_t bytes)
{
    if (allocator != 0)
        __atomic_fetch_sub(&allocator->taken, bytes, __ATOMIC_RELAXED);
}

static void *block_of(struct allocator *allocator, size_t multiple, size_t bytes)
{
    size_t taken = bytes + sizeof(struct head) + multiple;
    if (taken < bytes || (allocator != 0 && !take(allocator, taken)))
        return 0;
    char *block = malloc(taken);
    if (block == 0) {
        give_back(allocator, taken);
        return 0;
    }
    char *given = block + sizeof(struct head);
    given += -(uintptr_t)given % multiple;
    ((struct head *)given)[-1] = (struct head){block, bytes, taken, allocator};
    return given;
}

void *omp_aligned_alloc(size_t multiple, size_t bytes, omp_allocator_handle_t handle)
{
    if (handle == omp_null_allocator)
        handle = omp_get_default_allocator();
    if (bytes == 0)
        return 0;
    for (;;) {
        struct allocator *allocator = made(handle);
        size_t wanted = multiple > 16 ? multiple : 16;
        if (allocator != 0 && allocator->multiple > wanted)
            wanted = allocator->multiple;
        void *given = block_of(allocator, wanted, bytes);
        if (given != 0 || allocator == 0)
            return given;
        switch (allocator->otherwise) {
        case omp_atv_null_fb:
            return 0;
        case omp_atv_abort_fb:
            __shasta_fail("shasta: an allocator of OpenMP has no more memory\n");
        case omp_atv_allocator_fb:
            handle = allocator->other;
            break;
        default:
            handle = omp_default_mem_alloc;
        }
    }
}

void *omp_alloc(size_t bytes, omp_allocator_handle_t allocator)
{
    return omp_aligned_alloc(1, bytes, allocator);
}

void *omp_aligned_calloc(size_t multiple, size_t count, size_t bytes,
                         omp_allocator_handle_t allocator)
{
    size_t all;
    if (__builtin_mul_overflow(count, bytes, &all))
        return 0;
    void *given = omp_aligned_alloc(multiple, all, allocator);
    return given != 0 ? memset(given, 0, all) : 0;
}

void *omp_calloc(size_t count, size_t bytes, omp_allocator_handle_t allocator)
{
    return omp_aligned_calloc(1, count, bytes, allocator);
}

void omp_free(void *block, omp_allocator_handle_t allocator)
{
    (void)allocator;
    if (block == 0)
        return;
    struct head head = ((struct head *)block)[-1];
    give_back(head.allocator, head.taken);
    free(head.block);
}

/* What the block before had of its allocator counts for the new one. */
void *omp_realloc(void *block, size_t bytes, omp_allocator_handle_t allocator,
                  omp_allocator_handle_t free_allocator)
{
    (void)free_allocator;
    if (block == 0)
        return omp_alloc(bytes, allocator);
    struct head head = ((struct head *)block)[-1];
    if (allocator == omp_null_allocator && head.allocator != 0)
        allocator = (omp_allocator_handle_t)(uintptr_t)head.allocator;
    give_back(head.allocator, head.taken);
    void *given = omp_alloc(bytes, allocator);
    if (given == 0 && bytes != 0) {
        give_back(head.allocator, -head.taken);
        return 0;
    }
    if (given != 0)
        memcpy(given, block, bytes < head.bytes ? bytes : head.bytes);
    free(head.block);
    return given;
}

/* The allocate clause. */
void *GOMP_alloc(size_t multiple, size_t bytes, uintptr_t allocator)
{
    return omp_aligned_alloc(multiple, bytes, (omp_allocator_handle_t)allocator);
}

void GOMP_free(void *block, uintptr_t allocator)
{
    omp_free(block, (omp_allocator_handle_t)allocator);
}
