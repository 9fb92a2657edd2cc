/* printf: the format, and what isn't a number with a point. The C library's own takes a long double
   for a double, and writes one character of a wide string. */
#include "format.h"

#include <errno.h>
#include <limits.h>
#include <stdint.h>
#include <string.h>
#include <wchar.h>

enum { MOST_DIGITS = 22 };   /* of 64 bits, in octal digits */

/* Whether a byte of UTF-8 is the first of a character. */
static bool is_first(char byte)
{
    return (byte & 0xc0) != 0x80;
}

void __shasta_put(struct writer *to, char byte)
{
    if (!to->is_wide || is_first(byte))
        to->count += 1;
    if (!to->failed && to->file->put(byte, to->file) < 0)
        to->failed = true;
}

void __shasta_put_many(struct writer *to, char byte, int count)
{
    for (; count > 0; count -= 1)
        __shasta_put(to, byte);
}

void __shasta_put_text(struct writer *to, const char *text, int length)
{
    for (int k = 0; k < length; k += 1)
        __shasta_put(to, text[k]);
}

bool __shasta_begin_field(struct writer *to, const struct conversion *conversion,
                          const char *prefix, unsigned length)
{
    unsigned whole = (unsigned)strlen(prefix) + length, width = (unsigned)conversion->width;
    unsigned most = whole < width ? width : whole;
    if (whole < length || most > INT_MAX - to->count) {
        to->failed = true;
        errno = EOVERFLOW;
        return false;
    }
    int padding = (int)(most - whole);
    if (!(conversion->flags & (LEFT | ZEROS)))
        __shasta_put_many(to, ' ', padding);
    __shasta_put_text(to, prefix, (int)strlen(prefix));
    if (conversion->flags & ZEROS && !(conversion->flags & LEFT))
        __shasta_put_many(to, '0', padding);
    return true;
}

void __shasta_end_field(struct writer *to, const struct conversion *conversion, const char *prefix,
                        unsigned length)
{
    if (conversion->flags & LEFT)
        __shasta_put_many(to, ' ', conversion->width - (int)(strlen(prefix) + length));
}

/* How much of a text is written where so much may be, in bytes or characters as they are counted; and
   how many bytes that is. */
static unsigned measure(const struct writer *to, const char *text, unsigned most, unsigned *bytes)
{
    unsigned count = 0, at = 0;
    for (; count < most && text[at] != '\0'; count += 1) {
        unsigned char byte = (unsigned char)text[at++];
        for (int more = byte >= 0xf0 ? 3 : byte >= 0xe0 ? 2 : byte >= 0xc0; more > 0; more -= 1)
            at += to->is_wide && !is_first(text[at]);
    }
    *bytes = at;
    return count;
}

static void put_field(struct writer *to, const struct conversion *conversion, const char *text,
                      unsigned count, unsigned bytes)
{
    if (!__shasta_begin_field(to, conversion, "", count))
        return;
    __shasta_put_text(to, text, (int)bytes);
    __shasta_end_field(to, conversion, "", count);
}

/* Divides a number of 64 bits, and gives the rest. RV32 has instructions for words alone. */
static unsigned divide(uint64_t *number, unsigned by)
{
    uint32_t high = (uint32_t)(*number >> 32), low = (uint32_t)*number;
    uint32_t middle = high % by << 16 | low >> 16;
    uint32_t last = middle % by << 16 | (low & 0xffff);
    *number = (uint64_t)(high / by) << 32 | (uint64_t)(middle / by) << 16 | last / by;
    return last % by;
}

static uint64_t whole_number(const struct conversion *conversion, va_list *arguments)
{
    bool has_sign = conversion->letter == 'd';
    if (conversion->size == 'q')
        return va_arg(*arguments, uint64_t);
    uint32_t word = va_arg(*arguments, uint32_t);
    if (conversion->size == 'H')
        word = has_sign ? (uint32_t)(int8_t)word : (uint8_t)word;
    else if (conversion->size == 'h')
        word = has_sign ? (uint32_t)(int16_t)word : (uint16_t)word;
    return has_sign ? (uint64_t)(int64_t)(int32_t)word : word;
}

/* What stands before a number's digits. */
static const char *prefix_of(const struct conversion *conversion, bool is_negative, bool is_zero)
{
    if (conversion->letter == 'd')
        return is_negative                    ? "-"
               : conversion->flags & SIGN  ? "+"
               : conversion->flags & SPACE ? " "
                                           : "";
    if (!(conversion->flags & OTHER_FORM) || is_zero)
        return "";
    return conversion->letter == 'x' ? "0x" : conversion->letter == 'X' ? "0X" : "";
}

static void put_whole(struct writer *to, struct conversion *conversion, uint64_t number)
{
    char digits[MOST_DIGITS];
    const char *all = conversion->letter == 'X' ? "0123456789ABCDEF" : "0123456789abcdef";
    unsigned base = conversion->letter == 'o' ? 8
                    : conversion->letter == 'd' || conversion->letter == 'u' ? 10 : 16;
    bool is_negative = conversion->letter == 'd' && (int64_t)number < 0;
    const char *prefix = prefix_of(conversion, is_negative, number == 0);
    int count = 0, least = conversion->precision < 0 ? 1 : conversion->precision;
    if (is_negative)
        number = -number;
    while (number != 0)
        digits[count++] = all[divide(&number, base)];
    if (conversion->letter == 'o' && conversion->flags & OTHER_FORM && least <= count)
        least = count + 1;
    if (conversion->precision >= 0)
        conversion->flags &= ~ZEROS;
    unsigned length = (unsigned)(least < count ? count : least);
    if (!__shasta_begin_field(to, conversion, prefix, length))
        return;
    __shasta_put_many(to, '0', least - count);
    for (int k = count; k > 0; k -= 1)
        __shasta_put(to, digits[k - 1]);
    __shasta_end_field(to, conversion, prefix, length);
}

int __shasta_encode(char *bytes, unsigned character)
{
    if (character < 0x80) {
        bytes[0] = (char)character;
        return 1;
    }
    int more = character < 0x800 ? 1 : character < 0x10000 ? 2 : 3;
    for (int k = more; k > 0; k -= 1, character >>= 6)
        bytes[k] = (char)(0x80 | (character & 0x3f));
    bytes[0] = (char)(0xff00 >> (more + 1) | character);
    return more + 1;
}

/* Writes characters up to the first 0, and whole ones alone. */
static void put_wide(struct writer *to, const struct conversion *conversion, const wchar_t *text)
{
    char bytes[4];
    unsigned most = (unsigned)conversion->precision, length = 0, count = 0;
    for (; length < most && text[count] != 0; count += 1) {
        unsigned more = (unsigned)__shasta_encode(bytes, (unsigned)text[count]);
        more = to->is_wide ? 1 : more;
        if (more > most - length)
            break;
        length += more;
    }
    if (!__shasta_begin_field(to, conversion, "", length))
        return;
    for (unsigned k = 0; k < count; k += 1)
        __shasta_put_text(to, bytes, __shasta_encode(bytes, (unsigned)text[k]));
    __shasta_end_field(to, conversion, "", length);
}

static void put_string(struct writer *to, const struct conversion *conversion, const char *text)
{
    if (text == 0)
        text = "(null)";
    else if (conversion->size == 'l')
        return put_wide(to, conversion, (const wchar_t *)text);
    unsigned bytes, count = measure(to, text, (unsigned)conversion->precision, &bytes);
    put_field(to, conversion, text, count, bytes);
}

static void put_character(struct writer *to, const struct conversion *conversion,
                          unsigned character)
{
    char bytes[4] = {(char)character};
    unsigned length = 1;
    if (conversion->size == 'l' || to->is_wide)
        length = (unsigned)__shasta_encode(bytes, character);
    put_field(to, conversion, bytes, to->is_wide ? 1 : length, length);
}

static void store_count(const struct conversion *conversion, unsigned count, void *where)
{
    if (conversion->size == 'q')
        *(long long *)where = count;
    else if (conversion->size == 'h')
        *(short *)where = (short)count;
    else if (conversion->size == 'H')
        *(signed char *)where = (signed char)count;
    else
        *(int *)where = (int)count;
}

/* A number of a format, or the next argument where a star stands; one that is too large is the
   largest. */
static int number_of(const char **at, va_list *arguments)
{
    unsigned number = 0;
    if (**at == '*') {
        *at += 1;
        return va_arg(*arguments, int);
    }
    for (; **at >= '0' && **at <= '9'; *at += 1) {
        unsigned digit = (unsigned)(**at - '0');
        number = number > (INT_MAX - digit) / 10 ? INT_MAX : number * 10 + digit;
    }
    return (int)number;
}

static char size_of(const char **at)
{
    char size = 0;
    for (;; *at += 1)
        if (**at == 'h' || **at == 'l')
            size = size != **at ? **at : size == 'h' ? 'H' : 'q';
        else if (**at == 'L')
            size = 'L';
        else if (**at == 'j' || **at == 'q')
            size = 'q';
        else if (**at != 'z' && **at != 't')
            return size;
}

/* Where a letter stands in a text; -1 where it doesn't. */
static int place_in(const char *text, char letter)
{
    for (int k = 0; text[k] != '\0'; k += 1)
        if (text[k] == letter)
            return k;
    return -1;
}

/* Reads a conversion; `at` stands after its per cent sign, and then after its letter. */
static struct conversion read_conversion(const char **at, va_list *arguments)
{
    static const char flags[] = "-+ #0'";
    struct conversion conversion = {0, 0, -1, 0, 0};
    for (int flag; (flag = place_in(flags, **at)) >= 0; *at += 1)
        conversion.flags |= 1u << flag;
    conversion.width = number_of(at, arguments);
    if (conversion.width < 0) {
        conversion.flags |= LEFT;
        conversion.width = -(unsigned)conversion.width;
    }
    if (**at == '.') {
        *at += 1;
        conversion.precision = number_of(at, arguments);
    }
    conversion.size = size_of(at);
    conversion.letter = **at == 'i' ? 'd' : **at == 'p' ? 'x' : **at;
    if (**at == 'p')
        conversion.flags |= OTHER_FORM;
    if (**at != '\0')
        *at += 1;
    return conversion;
}

/* Writes one conversion, whose text is that between the two places. */
static void put_conversion(struct writer *to, const char *from, const char **at,
                           va_list *arguments, put_number_type *put_number)
{
    struct conversion conversion = read_conversion(at, arguments);
    switch (conversion.letter) {
    case 'd':
    case 'u':
    case 'x':
    case 'X':
    case 'o':
        if (conversion.size == 'L')
            conversion.size = 'q';
        put_whole(to, &conversion, whole_number(&conversion, arguments));
        break;
    case 's':
        put_string(to, &conversion, va_arg(*arguments, const char *));
        break;
    case 'c':
        put_character(to, &conversion, va_arg(*arguments, unsigned));
        break;
    case 'n':
        store_count(&conversion, to->count, va_arg(*arguments, void *));
        break;
    case '%':
        __shasta_put(to, '%');
        break;
    default:
        if (put_number != 0 && place_in("fFeEgGaA", conversion.letter) >= 0)
            put_number(to, &conversion, arguments);
        else
            __shasta_put_text(to, from, (int)(*at - from));
    }
}

int __shasta_format(struct writer to, const char *format, va_list arguments,
                    put_number_type *put_number)
{
    va_list rest;
    if (!(to.file->flags & __SWR)) {
        errno = EBADF;
        return EOF;
    }
    va_copy(rest, arguments);
    while (*format != '\0' && !to.failed) {
        const char *from = format;
        format += 1;
        if (*from == '%')
            put_conversion(&to, from, &format, &rest, put_number);
        else
            __shasta_put(&to, *from);
    }
    va_end(rest);
    if (to.count > INT_MAX) {
        to.failed = true;
        errno = EOVERFLOW;
    }
    return to.failed ? EOF : (int)to.count;
}
