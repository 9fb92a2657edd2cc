/* Characters and wide strings, written in UTF-8. */
#include "format.h"

#include <wchar.h>

wint_t fputwc(wchar_t character, FILE *file)
{
    char bytes[4];
    int length = __shasta_encode(bytes, (unsigned)character);
    for (int k = 0; k < length; k += 1)
        if (putc(bytes[k], file) == EOF)
            return WEOF;
    return (wint_t)character;
}

#undef putwc
wint_t putwc(wchar_t character, FILE *file)
{
    return fputwc(character, file);
}

#undef putwchar
wint_t putwchar(wchar_t character)
{
    return fputwc(character, stdout);
}

int fputws(const wchar_t *restrict text, FILE *restrict file)
{
    for (; *text != 0; text += 1)
        if (fputwc(*text, file) == WEOF)
            return EOF;
    return 0;
}
