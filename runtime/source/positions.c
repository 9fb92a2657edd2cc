/* Places in a file. */
#include <stdio.h>

int fgetpos(FILE *file, fpos_t *place)
{
    long at = ftell(file);
    *place = at;
    return at < 0 ? -1 : 0;
}

int fsetpos(FILE *file, fpos_t *place)
{
    return fseek(file, (long)*place, SEEK_SET);
}
