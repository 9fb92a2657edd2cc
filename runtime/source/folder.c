/* The one folder that there is. */
#include <errno.h>
#include <stdlib.h>
#include <string.h>
#include <unistd.h>

char *getcwd(char *name, size_t size)
{
    if (name == 0)
        name = malloc(size = size < 2 ? 2 : size);
    else if (size < 2) {
        errno = size == 0 ? EINVAL : ERANGE;
        return 0;
    }
    return name != 0 ? strcpy(name, "/") : 0;
}

int chdir(const char *name)
{
    if (strcmp(name, "/") == 0 || strcmp(name, ".") == 0)
        return 0;
    errno = ENOENT;
    return -1;
}
