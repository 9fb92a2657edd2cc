/* printf of wide formats: they become UTF-8, and so does what a file is given. A string is given the
   characters. */
#include "format.h"

#include <errno.h>
#include <wchar.h>

/* A string that is written to, as a file. */
struct wide_text {
    FILE file;
    wchar_t *at;
    wchar_t *end;
    unsigned character;      /* of which so many bytes are lacking */
    unsigned more;
};

static int put_byte(char byte, FILE *file)
{
    struct wide_text *text = (struct wide_text *)file;
    unsigned bits = (unsigned char)byte;
    if ((bits & 0xc0) == 0x80) {
        text->character = text->character << 6 | (bits & 0x3f);
        text->more -= text->more != 0;
    } else {
        text->more = bits >= 0xf0 ? 3 : bits >= 0xe0 ? 2 : bits >= 0xc0;
        text->character = bits & (text->more != 0 ? 0x3fu >> text->more : 0x7f);
    }
    if (text->more != 0)
        return 0;
    if (text->at == text->end)
        return _FDEV_ERR;
    *text->at++ = (wchar_t)text->character;
    return 0;
}

int vfwprintf(FILE *restrict file, const wchar_t *restrict format, va_list arguments)
{
    char bytes[4 * wcslen(format) + 1], *at = bytes;
    for (; *format != 0; format += 1)
        at += __shasta_encode(at, (unsigned)*format);
    *at = '\0';
    return __shasta_format((struct writer){.file = file, .is_wide = true}, bytes, arguments,
                           __shasta_put_number);
}

int vwprintf(const wchar_t *restrict format, va_list arguments)
{
    return vfwprintf(stdout, format, arguments);
}

/* A text that has no room is an error, unlike vsnprintf's. */
int vswprintf(wchar_t *restrict text, size_t room, const wchar_t *restrict format,
              va_list arguments)
{
    struct wide_text to = {FDEV_SETUP_STREAM(put_byte, 0, 0, _FDEV_SETUP_WRITE), text, text, 0, 0};
    if (room == 0)
        return -1;
    to.end = text + room - 1;
    int length = vfwprintf(&to.file, format, arguments);
    *to.at = 0;
    if (length < 0)
        errno = EOVERFLOW;
    return length;
}

int fwprintf(FILE *restrict file, const wchar_t *restrict format, ...)
{
    va_list arguments;
    va_start(arguments, format);
    int length = vfwprintf(file, format, arguments);
    va_end(arguments);
    return length;
}

int wprintf(const wchar_t *restrict format, ...)
{
    va_list arguments;
    va_start(arguments, format);
    int length = vfwprintf(stdout, format, arguments);
    va_end(arguments);
    return length;
}

int swprintf(wchar_t *restrict text, size_t room, const wchar_t *restrict format, ...)
{
    va_list arguments;
    va_start(arguments, format);
    int length = vswprintf(text, room, format, arguments);
    va_end(arguments);
    return length;
}
