/* Target regions: each of these calls leads to a name that isn't there, which is what the linker says. */
void target_regions_are_not_supported__there_is_no_device(void);

#define REFUSED(name)                                                                        \
    void name(void)                                                                          \
    {                                                                                        \
        target_regions_are_not_supported__there_is_no_device();                              \
    }

REFUSED(GOMP_target)
REFUSED(GOMP_target_ext)
REFUSED(GOMP_target_data)
REFUSED(GOMP_target_data_ext)
REFUSED(GOMP_target_end_data)
REFUSED(GOMP_target_update)
REFUSED(GOMP_target_update_ext)
REFUSED(GOMP_target_enter_exit_data)
REFUSED(GOMP_teams)
REFUSED(GOMP_teams4)
