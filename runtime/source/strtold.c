/* strtold: the number that is nearest. The C library's own rounds more than once. */
#include "numeral.h"

#include <stdlib.h>
#include <string.h>

long double strtold(const char *restrict text, char **restrict end)
{
    long double number;
    uint32_t words[4];
    __shasta_read_text(text, end, &__shasta_long_double, words);
    memcpy(&number, words, sizeof number);
    return number;
}
