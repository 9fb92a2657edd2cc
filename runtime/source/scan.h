/* What the parts of scanf share. */
#ifndef SCAN_H
#define SCAN_H

#include <stdarg.h>
#include <stdbool.h>
#include <stdio.h>

/* Where scanf reads: so many bytes are left of the width, and so many have been read in all. */
struct input {
    FILE *file;
    unsigned left;
    unsigned count;
};

/* The next byte, or EOF where there is none, or the width is used up; and back with it. */
int __shasta_next(struct input *from);
void __shasta_back(struct input *from, int byte);

/* Reads a number with a point, of float, or of double by l, or of long double by L; and stores it
   where the address isn't 0. */
typedef bool read_number_type(struct input *from, char size, void *where);
read_number_type __shasta_read_number;

/* Reads all of a format; the last is 0 where numbers with a point are left out. */
int __shasta_scan(FILE *file, const char *format, va_list arguments,
                  read_number_type *read_number);

#endif
