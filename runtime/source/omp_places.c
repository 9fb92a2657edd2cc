/* The calls of <omp.h> about what there isn't: places to which threads are bound, and devices. */
#include "../shasta.specs.d/omp.h"

omp_proc_bind_t omp_get_proc_bind(void)
{
    return omp_proc_bind_false;
}

int omp_get_num_places(void)
{
    return 0;
}

int omp_get_place_num_procs(int place)
{
    (void)place;
    return 0;
}

void omp_get_place_proc_ids(int place, int *numbers)
{
    (void)place, (void)numbers;
}

int omp_get_place_num(void)
{
    return -1;
}

int omp_get_partition_num_places(void)
{
    return 0;
}

void omp_get_partition_place_nums(int *places)
{
    (void)places;
}

int omp_get_num_devices(void)
{
    return 0;
}

int omp_get_default_device(void)
{
    return 0;
}

void omp_set_default_device(int device)
{
    (void)device;
}

int omp_get_initial_device(void)
{
    return 0;
}

int omp_get_device_num(void)
{
    return 0;
}

int omp_is_initial_device(void)
{
    return 1;
}

int omp_pause_resource(omp_pause_resource_t kind, int device)
{
    (void)kind, (void)device;
    return -1;
}

int omp_pause_resource_all(omp_pause_resource_t kind)
{
    (void)kind;
    return -1;
}

void omp_display_env(int is_verbose)
{
    (void)is_verbose;
}
