/* The printf that all others of the C library call. */
#include "format.h"

int vfprintf(FILE *file, const char *format, va_list arguments)
{
    return __shasta_format((struct writer){.file = file}, format, arguments, __shasta_put_number);
}

/* Its other name in the library. */
int __d_vfprintf(FILE *file, const char *format, va_list arguments)
    __attribute__((alias("vfprintf")));
