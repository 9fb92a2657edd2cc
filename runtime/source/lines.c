/* Lines of any length, as POSIX reads them. */
#include <errno.h>
#include <stdint.h>
#include <stdio.h>
#include <stdlib.h>

enum { FIRST_ROOM = 120 };

ssize_t getdelim(char **line, size_t *room, int end, FILE *file)
{
    size_t length = 0;
    if (line == 0 || room == 0) {
        errno = EINVAL;
        return -1;
    }
    if (*line == 0)
        *room = 0;
    for (;;) {
        if (length + 1 >= *room) {
            size_t more = *room < FIRST_ROOM ? FIRST_ROOM : 2 * *room;
            char *larger = more < PTRDIFF_MAX ? realloc(*line, more) : 0;
            if (larger == 0) {
                errno = ENOMEM;
                return -1;
            }
            *line = larger;
            *room = more;
        }
        int byte = getc(file);
        if (byte == EOF && length == 0)
            return -1;
        if (byte != EOF)
            (*line)[length++] = (char)byte;
        if (byte == EOF || byte == end) {
            (*line)[length] = '\0';
            return (ssize_t)length;
        }
    }
}

ssize_t getline(char **line, size_t *room, FILE *file)
{
    return getdelim(line, room, '\n', file);
}
