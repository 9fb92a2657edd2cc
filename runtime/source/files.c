/* Files that are linked in, to be read: runtime/embed makes them. There are no others, and none is
   written. A file that is open belongs to all processors, as its place in it does. */
#include "files.h"

#include <errno.h>
#include <fcntl.h>
#include <string.h>
#include <sys/stat.h>
#include <unistd.h>

enum { FIRST = 3, MOST = 16 };

static struct {
    const struct linked_file *file;
    off_t at;
} open_files[MOST];

static int fails(int error)
{
    errno = error;
    return -1;
}

/* The one folder is that where programs begin: `./name` and `/name` are `name`. */
static const struct linked_file *named(const char *name)
{
    while (*name == '/' || (name[0] == '.' && name[1] == '/'))
        name += *name == '/' ? 1 : 2;
    for (const struct linked_file *file = linked_files; file->name != 0; file += 1)
        if (strcmp(file->name, name) == 0)
            return file;
    return 0;
}

static int is_open(int number)
{
    return number >= FIRST && number < FIRST + MOST && open_files[number - FIRST].file != 0;
}

int open(const char *name, int flags, ...)
{
    const struct linked_file *file = named(name);
    if ((flags & O_ACCMODE) != O_RDONLY)
        return fails(EROFS);
    if (file == 0)
        return fails(ENOENT);
    for (int k = 0; k < MOST; k += 1) {
        const struct linked_file *none = 0;
        if (!__atomic_compare_exchange_n(&open_files[k].file, &none, file, 0, __ATOMIC_ACQUIRE,
                                         __ATOMIC_RELAXED))
            continue;
        open_files[k].at = 0;
        return FIRST + k;
    }
    return fails(EMFILE);
}

int close(int number)
{
    if (!is_open(number))
        return number >= 0 && number < FIRST ? 0 : fails(EBADF);
    __atomic_store_n(&open_files[number - FIRST].file, 0, __ATOMIC_RELEASE);
    return 0;
}

ssize_t read(int number, void *bytes, size_t most)
{
    if (number == STDIN_FILENO)
        return 0;
    if (!is_open(number))
        return fails(EBADF);
    const struct linked_file *file = open_files[number - FIRST].file;
    off_t at = open_files[number - FIRST].at;
    size_t left = at < (off_t)file->length ? file->length - (size_t)at : 0;
    size_t count = most < left ? most : left;
    memcpy(bytes, file->bytes + at, count);
    open_files[number - FIRST].at = at + (off_t)count;
    return (ssize_t)count;
}

off_t lseek(int number, off_t to, int whence)
{
    if (!is_open(number))
        return fails(number >= 0 && number < FIRST ? ESPIPE : EBADF);
    off_t from = 0;
    if (whence == SEEK_CUR)
        from = open_files[number - FIRST].at;
    else if (whence == SEEK_END)
        from = (off_t)open_files[number - FIRST].file->length;
    else if (whence != SEEK_SET)
        return fails(EINVAL);
    if (__builtin_add_overflow(from, to, &to))
        return fails(EOVERFLOW);
    if (to < 0)
        return fails(EINVAL);
    return open_files[number - FIRST].at = to;
}

static int describe(const struct linked_file *file, struct stat *status)
{
    *status = (struct stat){0};
    status->st_mode = file != 0 ? S_IFREG | 0444 : S_IFCHR | 0222;
    status->st_size = file != 0 ? (off_t)file->length : 0;
    return 0;
}

int fstat(int number, struct stat *status)
{
    if (is_open(number))
        return describe(open_files[number - FIRST].file, status);
    return number >= 0 && number < FIRST ? describe(0, status) : fails(EBADF);
}

int stat(const char *restrict name, struct stat *restrict status)
{
    const struct linked_file *file = named(name);
    return file != 0 ? describe(file, status) : fails(ENOENT);
}

int unlink(const char *name)
{
    return fails(named(name) != 0 ? EROFS : ENOENT);
}
