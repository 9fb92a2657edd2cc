/* The C library's <stdio.h>, and what POSIX has beside it. */
#include_next <stdio.h>

#ifndef SHASTA_STDIO_H
#define SHASTA_STDIO_H

#include <sys/types.h>

#if __POSIX_VISIBLE >= 200809

#ifdef __cplusplus
extern "C" {
#endif

ssize_t getdelim(char **line, size_t *room, int end, FILE *file);
ssize_t getline(char **line, size_t *room, FILE *file);
int dprintf(int file, const char *format, ...) __attribute__((format(printf, 2, 3)));
int vdprintf(int file, const char *format, va_list arguments)
    __attribute__((format(printf, 2, 0)));

#ifdef __cplusplus
}
#endif

#endif

#endif
