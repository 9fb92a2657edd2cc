/* printf to a file's number. There is the output alone. */
#include <errno.h>
#include <stdio.h>
#include <unistd.h>

int vdprintf(int file, const char *format, va_list arguments)
{
    if (file != STDOUT_FILENO && file != STDERR_FILENO) {
        errno = EBADF;
        return -1;
    }
    int length = vfprintf(stdout, format, arguments);
    fflush(stdout);
    return length;
}

int dprintf(int file, const char *format, ...)
{
    va_list arguments;
    va_start(arguments, format);
    int length = vdprintf(file, format, arguments);
    va_end(arguments);
    return length;
}
