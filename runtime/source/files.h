/* A file that is linked in, in read-only memory. */
#ifndef FILES_H
#define FILES_H

struct linked_file {
    const char *name;
    const unsigned char *bytes;
    unsigned length;
};

/* The program's, or those of no_files.c; ended by one without a name. */
extern const struct linked_file linked_files[];

#endif
