/* Whether a file may be read: each that is there may, and no more. */
#include <errno.h>
#include <sys/stat.h>
#include <unistd.h>

int access(const char *name, int mode)
{
    struct stat status;
    if (stat(name, &status) != 0)
        return -1;
    if ((mode & (W_OK | X_OK)) == 0)
        return 0;
    errno = mode & W_OK ? EROFS : EACCES;
    return -1;
}
