/* What the parts of printf share. */
#ifndef FORMAT_H
#define FORMAT_H

#include <stdarg.h>
#include <stdbool.h>
#include <stdio.h>

/* The flags of a conversion: - + space # 0, of which one bit each; that of ' isn't used. */
enum { LEFT = 1, SIGN = 2, SPACE = 4, OTHER_FORM = 8, ZEROS = 16 };

/* A conversion of a format. */
struct conversion {
    unsigned flags;
    int width;
    int precision;           /* below 0 where none is given */
    char size;               /* 0, or h, l, L; H for hh, and q for ll */
    char letter;
};

/* Where it is written, and how many bytes, or characters, have been. */
struct writer {
    FILE *file;
    unsigned count;
    bool failed;
    bool is_wide;            /* whether characters of UTF-8 are counted, and not bytes */
};

/* Writes a byte; so many times. */
void __shasta_put(struct writer *to, char byte);
void __shasta_put_many(struct writer *to, char byte, int count);
void __shasta_put_text(struct writer *to, const char *text, int length);

/* Writes what stands before a body of so many bytes: spaces, a sign or a prefix, and zeros. A body
   that would make the whole too long is none: the writer has failed, and false is the answer. */
bool __shasta_begin_field(struct writer *to, const struct conversion *conversion,
                          const char *prefix, unsigned length);

/* Writes the spaces after it. */
void __shasta_end_field(struct writer *to, const struct conversion *conversion, const char *prefix,
                        unsigned length);

/* Takes a number that isn't whole from the arguments, and writes it. */
typedef void put_number_type(struct writer *to, const struct conversion *conversion,
                             va_list *arguments);
put_number_type __shasta_put_number;

/* Writes all of a format; the last is 0 where numbers that aren't whole are left out. */
int __shasta_format(struct writer to, const char *format, va_list arguments,
                    put_number_type *put_number);

/* A character in UTF-8; gives how many bytes it has. */
int __shasta_encode(char *bytes, unsigned character);

#endif
