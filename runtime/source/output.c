/* The output: each processor collects a line in its own memory and writes it whole, under a
   lock, so that lines of two don't mix. A long line gets room from the arena, which is kept for
   the next; one that is longer than LONGEST, or has no room, is written in parts. stdout and
   stderr are this one output; there is no input. */
#include "own.h"

#include <errno.h>
#include <stdio.h>
#include <unistd.h>

enum { LONG = 4096, LONGEST = 65536 };

static struct shasta_lock output;

static int write_all(const char *bytes, unsigned length)
{
    __shasta_enter(&output);
    register int file __asm__("a0") = 1;
    register const char *from __asm__("a1") = bytes;
    register unsigned count __asm__("a2") = length;
    register int call __asm__("a7") = 64;
    __asm__ volatile("ecall" : "+r"(file) : "r"(from), "r"(count), "r"(call) : "memory");
    shasta_leave(&output);
    return file;
}

void __shasta_flush(void)
{
    unsigned length = own.length;
    own.length = 0;
    if (length != 0)
        write_all(length <= LINE_BYTES ? own.line : own.long_line, length);
}

/* As memcpy, which is longer than what calls it. */
static void copy(char *to, const char *from, unsigned length)
{
    for (unsigned k = 0; k < length; k += 1)
        to[k] = from[k];
}

/* Makes the line longer, and says whether there was room. */
static int make_room(void)
{
    if (own.length == own.room || own.long_line == 0) {
        unsigned room = own.room == 0 ? LONG : LONGEST;
        char *longer = own.room == LONGEST ? 0 : __shasta_more(room, SHASTA_LINE);
        if (longer == 0)
            return 0;
        if (own.room != 0)
            copy(longer, own.long_line, own.length);
        own.long_line = longer;
        own.room = room;
    }
    if (own.length == LINE_BYTES)
        copy(own.long_line, own.line, LINE_BYTES);
    return 1;
}

static int put(char byte, FILE *file)
{
    (void)file;
    if ((own.length == LINE_BYTES || own.length == own.room) && own.length != 0 && !make_room())
        __shasta_flush();
    char *line = own.length < LINE_BYTES ? own.line : own.long_line;
    line[own.length] = byte;
    own.length += 1;
    if (byte == '\n')
        __shasta_flush();
    return (unsigned char)byte;
}

static int get(FILE *file)
{
    (void)file;
    return _FDEV_EOF;
}

static int flush(FILE *file)
{
    (void)file;
    __shasta_flush();
    return 0;
}

static FILE output_file = FDEV_SETUP_STREAM(put, 0, flush, _FDEV_SETUP_WRITE);
static FILE input_file = FDEV_SETUP_STREAM(0, get, 0, _FDEV_SETUP_READ);

FILE *const stdout = &output_file;
FILE *const stderr = &output_file;
FILE *const stdin = &input_file;

ssize_t write(int file, const void *bytes, size_t length)
{
    if (file != STDOUT_FILENO && file != STDERR_FILENO) {
        errno = EBADF;
        return -1;
    }
    __shasta_flush();
    int written = write_all(bytes, length);
    if (written < 0) {
        errno = -written;
        return -1;
    }
    return written;
}
