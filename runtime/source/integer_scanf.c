/* The scanf of `-DINTEGER_PRINTF`, without numbers that have a point. */
#include "scan.h"

int __i_vfscanf(FILE *file, const char *format, va_list arguments)
{
    return __shasta_scan(file, format, arguments, 0);
}
