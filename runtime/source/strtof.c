/* strtof: the number that is nearest. The C library's own keeps 9 digits. */
#include "numeral.h"

#include <stdlib.h>
#include <string.h>

float strtof(const char *restrict text, char **restrict end)
{
    float number;
    uint32_t words[4];
    __shasta_read_text(text, end, &__shasta_float, words);
    memcpy(&number, words, sizeof number);
    return number;
}
