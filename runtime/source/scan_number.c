/* scanf's numbers with a point. */
#include "numeral.h"
#include "scan.h"

#include <errno.h>
#include <stddef.h>
#include <string.h>

bool __shasta_read_number(struct input *from, char size, void *where)
{
    const struct number_type *type = size == 'L'   ? &__shasta_long_double
                                     : size == 'l' ? &__shasta_double
                                                   : &__shasta_float;
    struct numeral numeral;
    uint32_t words[4];
    int byte;
    memset(&numeral, 0, offsetof(struct numeral, digits));
    while ((byte = __shasta_next(from)) != EOF && __shasta_take(&numeral, byte))
        ;
    __shasta_back(from, byte);
    if (numeral.valid == 0 || numeral.valid != numeral.read)
        return false;
    if (!__shasta_nearest(&numeral, type, words))
        errno = ERANGE;
    if (where != 0)
        memcpy(where, words, type->words * sizeof words[0]);
    return true;
}
