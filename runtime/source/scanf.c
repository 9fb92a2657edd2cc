/* The scanf that all others of the C library call. */
#include "scan.h"

int vfscanf(FILE *file, const char *format, va_list arguments)
{
    return __shasta_scan(file, format, arguments, __shasta_read_number);
}

/* Its other name in the library. */
int __d_vfscanf(FILE *file, const char *format, va_list arguments)
    __attribute__((alias("vfscanf")));
