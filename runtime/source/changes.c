/* Calls that change a file, or a folder: none can be changed. A link that isn't there is no
   link. */
#include <errno.h>
#include <stdio.h>
#include <sys/stat.h>
#include <unistd.h>
#include <utime.h>

static int refuses(void)
{
    errno = EROFS;
    return -1;
}

int rename(const char *from, const char *to)
{
    (void)from, (void)to;
    return refuses();
}

int mkdir(const char *name, mode_t mode)
{
    (void)name, (void)mode;
    return refuses();
}

int rmdir(const char *name)
{
    (void)name;
    return refuses();
}

int chmod(const char *name, mode_t mode)
{
    (void)name, (void)mode;
    return refuses();
}

int fchmod(int file, mode_t mode)
{
    (void)file, (void)mode;
    return refuses();
}

int chown(const char *name, uid_t owner, gid_t group)
{
    (void)name, (void)owner, (void)group;
    return refuses();
}

int fchown(int file, uid_t owner, gid_t group)
{
    (void)file, (void)owner, (void)group;
    return refuses();
}

int utime(const char *name, const struct utimbuf *times)
{
    (void)name, (void)times;
    return refuses();
}

int lstat(const char *restrict name, struct stat *restrict status)
{
    return stat(name, status);
}
