/* err and its kin: what went wrong, after the program's name. */
#include <err.h>

#include <errno.h>
#include <stdio.h>
#include <stdlib.h>
#include <string.h>

extern char *program_arguments[];

static void tell(int error, const char *format, va_list arguments)
{
    fprintf(stderr, "%s: ", program_arguments[0]);
    if (format != 0)
        vfprintf(stderr, format, arguments);
    if (error >= 0)
        fprintf(stderr, "%s%s", format != 0 ? ": " : "", strerror(error));
    fprintf(stderr, "\n");
}

void vwarn(const char *format, va_list arguments)
{
    tell(errno, format, arguments);
}

void vwarnx(const char *format, va_list arguments)
{
    tell(-1, format, arguments);
}

_Noreturn void verr(int code, const char *format, va_list arguments)
{
    vwarn(format, arguments);
    exit(code);
}

_Noreturn void verrx(int code, const char *format, va_list arguments)
{
    vwarnx(format, arguments);
    exit(code);
}

void warn(const char *format, ...)
{
    va_list arguments;
    va_start(arguments, format);
    vwarn(format, arguments);
    va_end(arguments);
}

void warnx(const char *format, ...)
{
    va_list arguments;
    va_start(arguments, format);
    vwarnx(format, arguments);
    va_end(arguments);
}

_Noreturn void err(int code, const char *format, ...)
{
    va_list arguments;
    va_start(arguments, format);
    verr(code, format, arguments);
}

_Noreturn void errx(int code, const char *format, ...)
{
    va_list arguments;
    va_start(arguments, format);
    verrx(code, format, arguments);
}
