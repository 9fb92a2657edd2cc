/* strtod: the number that is nearest. The C library's own keeps 17 digits. */
#include "numeral.h"

#include <stdlib.h>
#include <string.h>

double strtod(const char *restrict text, char **restrict end)
{
    double number;
    uint32_t words[4];
    __shasta_read_text(text, end, &__shasta_double, words);
    memcpy(&number, words, sizeof number);
    return number;
}
