/* Telling what went wrong, as BSD does. */
#ifndef ERR_H
#define ERR_H

#include <stdarg.h>

#ifdef __cplusplus
extern "C" {
#endif

/* The program's name, the text, and what errno says; without the last by those that end with x. */
void warn(const char *format, ...) __attribute__((format(printf, 1, 2)));
void warnx(const char *format, ...) __attribute__((format(printf, 1, 2)));
void vwarn(const char *format, va_list arguments) __attribute__((format(printf, 1, 0)));
void vwarnx(const char *format, va_list arguments) __attribute__((format(printf, 1, 0)));

/* The same, and the end of the program with this code. */
void err(int code, const char *format, ...) __attribute__((noreturn, format(printf, 2, 3)));
void errx(int code, const char *format, ...) __attribute__((noreturn, format(printf, 2, 3)));
void verr(int code, const char *format, va_list arguments)
    __attribute__((noreturn, format(printf, 2, 0)));
void verrx(int code, const char *format, va_list arguments)
    __attribute__((noreturn, format(printf, 2, 0)));

#ifdef __cplusplus
}
#endif

#endif
