/* What strtod and its kin share: a number at the start of a text. */
#include "numeral.h"

#include <errno.h>
#include <stddef.h>
#include <string.h>

void __shasta_read_text(const char *text, char **end, const struct number_type *type,
                        uint32_t words[4])
{
    struct numeral numeral;
    const char *from = text;
    memset(&numeral, 0, offsetof(struct numeral, digits));
    while (*from == ' ' || (*from >= '\t' && *from <= '\r'))
        from += 1;
    for (const char *at = from; __shasta_take(&numeral, *at); at += 1)
        ;
    numeral.is_negative &= numeral.valid != 0;
    if (!__shasta_nearest(&numeral, type, words))
        errno = ERANGE;
    if (end != 0)
        *end = (char *)(numeral.valid != 0 ? from + numeral.valid : text);
}
