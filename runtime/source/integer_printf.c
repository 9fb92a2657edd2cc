/* The printf of `-DINTEGER_PRINTF`, without numbers that have a point. */
#include "format.h"

int __i_vfprintf(FILE *file, const char *format, va_list arguments)
{
    return __shasta_format((struct writer){.file = file}, format, arguments, 0);
}
