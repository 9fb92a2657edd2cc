/* scanf: the format, and what isn't a number with a point. The C library's own stores a double
   where a long double belongs. */
#include "scan.h"

#include <limits.h>
#include <stdint.h>
#include <string.h>
#include <wchar.h>

enum result { MATCHED, NO_MATCH, NO_INPUT };

/* A conversion of a format. */
struct conversion {
    bool is_stored;
    unsigned width;          /* 0 where none is given */
    char size;               /* 0, or h, l, L; H for hh, and q for ll */
    char letter;
    const char *set;         /* of a set: its bytes, and how many */
    unsigned set_length;
};

int __shasta_next(struct input *from)
{
    if (from->left == 0)
        return EOF;
    int byte = fgetc(from->file);
    from->left -= byte != EOF;
    from->count += byte != EOF;
    return byte;
}

void __shasta_back(struct input *from, int byte)
{
    if (byte == EOF)
        return;
    ungetc(byte, from->file);
    from->left += 1;
    from->count -= 1;
}

static bool is_space(int byte)
{
    return byte == ' ' || (byte >= '\t' && byte <= '\r');
}

static void skip_spaces(struct input *from)
{
    int byte;
    from->left = UINT_MAX;
    while (is_space(byte = __shasta_next(from)))
        ;
    __shasta_back(from, byte);
}

static unsigned digit_of(int byte)
{
    if (byte >= '0' && byte <= '9')
        return (unsigned)(byte - '0');
    byte |= 0x20;
    return byte >= 'a' && byte <= 'f' ? (unsigned)(byte - 'a' + 10) : 99;
}

static void store(const struct conversion *conversion, uint64_t number, void *where)
{
    if (conversion->size == 'q')
        *(uint64_t *)where = number;
    else if (conversion->size == 'h')
        *(uint16_t *)where = (uint16_t)number;
    else if (conversion->size == 'H')
        *(uint8_t *)where = (uint8_t)number;
    else
        *(uint32_t *)where = (uint32_t)number;
}

static unsigned base_of(char letter)
{
    return letter == 'i' ? 0 : letter == 'o' ? 8 : letter == 'x' ? 16 : 10;
}

static enum result read_whole(struct input *from, const struct conversion *conversion, void *where)
{
    unsigned base = base_of(conversion->letter);
    uint64_t number = 0;
    int byte = __shasta_next(from);
    bool is_negative = byte == '-', has_digits = false;
    if (byte == '-' || byte == '+')
        byte = __shasta_next(from);
    if (byte == '0' && (base == 0 || base == 16)) {
        has_digits = true;
        byte = __shasta_next(from);
        if (byte == 'x' || byte == 'X') {
            has_digits = false;
            base = 16;
            byte = __shasta_next(from);
        }
        base = base == 0 ? 8 : base;
    }
    base = base == 0 ? 10 : base;
    for (; digit_of(byte) < base; byte = __shasta_next(from)) {
        number = number * base + digit_of(byte);
        has_digits = true;
    }
    __shasta_back(from, byte);
    if (has_digits && conversion->is_stored)
        store(conversion, is_negative ? -number : number, where);
    return has_digits ? MATCHED : NO_MATCH;
}

/* Where bytes go, or the characters that they make in UTF-8. */
struct target {
    void *at;                /* 0 where nothing is stored */
    bool is_wide;
    unsigned more;           /* bytes that a character lacks */
    uint32_t character;
};

static void put_character(struct target *to, uint32_t character)
{
    if (to->at == 0)
        return;
    if (to->is_wide) {
        *(wchar_t *)to->at = (wchar_t)character;
        to->at = (wchar_t *)to->at + 1;
    } else {
        *(char *)to->at = (char)character;
        to->at = (char *)to->at + 1;
    }
}

static void put_byte(struct target *to, unsigned byte)
{
    if (!to->is_wide || byte < 0x80) {
        put_character(to, byte);
    } else if (byte >= 0xc0) {
        to->more = byte >= 0xf0 ? 3 : byte >= 0xe0 ? 2 : 1;
        to->character = byte & (0x3fu >> to->more);
    } else if (to->more != 0) {
        to->character = to->character << 6 | (byte & 0x3f);
        to->more -= 1;
        if (to->more == 0)
            put_character(to, to->character);
    }
}

/* Whether a set has a byte; a dash between two others stands for all between them. */
static bool is_in(const struct conversion *conversion, int byte)
{
    const unsigned char *set = (const unsigned char *)conversion->set;
    for (unsigned k = 0; k < conversion->set_length; k += 1) {
        if (k + 2 < conversion->set_length && set[k + 1] == '-') {
            if (byte >= set[k] && byte <= set[k + 2])
                return true;
            k += 2;
        } else if (byte == set[k]) {
            return true;
        }
    }
    return false;
}

static bool belongs(const struct conversion *conversion, int byte)
{
    switch (conversion->letter) {
    case 'c':
        return true;
    case 's':
        return !is_space(byte);
    case '^':
        return !is_in(conversion, byte);
    default:
        return is_in(conversion, byte);
    }
}

/* Reads bytes that a conversion by s, c or a set takes. */
static enum result read_bytes(struct input *from, const struct conversion *conversion, void *where)
{
    struct target to = {conversion->is_stored ? where : 0, conversion->size == 'l', 0, 0};
    unsigned before = from->count;
    int byte;
    while ((byte = __shasta_next(from)) != EOF && belongs(conversion, byte))
        put_byte(&to, (unsigned)byte);
    __shasta_back(from, byte);
    if (conversion->letter == 'c')
        return from->left == 0 ? MATCHED : NO_INPUT;
    put_character(&to, 0);
    return from->count != before ? MATCHED : NO_MATCH;
}

static char size_of(const char **at)
{
    char size = 0;
    for (;; *at += 1)
        if (**at == 'h' || **at == 'l')
            size = size != **at ? **at : size == 'h' ? 'H' : 'q';
        else if (**at == 'L')
            size = 'L';
        else if (**at == 'j' || **at == 'q')
            size = 'q';
        else if (**at != 'z' && **at != 't')
            return size;
}

/* Reads a set, whose first bracket has been read; `^` as its letter says that it is the others. */
static void read_set(const char **at, struct conversion *conversion)
{
    if (**at == '^') {
        conversion->letter = '^';
        *at += 1;
    }
    conversion->set = *at;
    if (**at == ']')
        *at += 1;
    while (**at != '\0' && **at != ']')
        *at += 1;
    conversion->set_length = (unsigned)(*at - conversion->set);
    if (**at == ']')
        *at += 1;
}

static struct conversion read_conversion(const char **at)
{
    struct conversion conversion = {.is_stored = **at != '*'};
    if (**at == '*')
        *at += 1;
    for (; **at >= '0' && **at <= '9'; *at += 1)
        conversion.width = conversion.width * 10 + (unsigned)(**at - '0');
    conversion.size = size_of(at);
    conversion.letter = **at;
    if (**at != '\0')
        *at += 1;
    if (conversion.letter == 'p' || conversion.letter == 'X')
        conversion.letter = 'x';
    if (conversion.letter == '[')
        read_set(at, &conversion);
    return conversion;
}

/* Reads what one conversion takes. Spaces before it are skipped, but for c, n and sets. */
static enum result read_one(struct input *from, const struct conversion *conversion, void *where,
                            read_number_type *read_number)
{
    char letter = conversion->letter;
    if (letter == '\0')
        return NO_MATCH;
    from->left = 1;
    if (strchr("c[^", letter) == 0)
        skip_spaces(from);
    int byte = __shasta_next(from);
    __shasta_back(from, byte);
    if (byte == EOF)
        return NO_INPUT;
    from->left = conversion->width != 0 ? conversion->width
                 : letter == 'c' ? 1 : UINT_MAX;
    if (strchr("diuox", letter) != 0)
        return read_whole(from, conversion, where);
    if (strchr("sc[^", letter) != 0)
        return read_bytes(from, conversion, where);
    if (read_number == 0 || strchr("aAeEfFgG", letter) == 0)
        return NO_MATCH;
    return read_number(from, conversion->size, where) ? MATCHED : NO_MATCH;
}

/* Reads a byte that stands in the format itself. */
static enum result read_itself(struct input *from, char awaited)
{
    from->left = 1;
    int byte = __shasta_next(from);
    if (byte == (unsigned char)awaited)
        return MATCHED;
    __shasta_back(from, byte);
    return byte == EOF ? NO_INPUT : NO_MATCH;
}

/* Reads one directive of a format, and counts what is stored. */
static enum result read_directive(struct input *from, const char **at, va_list *arguments,
                                  int *stored, read_number_type *read_number)
{
    char first = **at;
    *at += 1;
    if (is_space(first)) {
        skip_spaces(from);
        return MATCHED;
    }
    if (first != '%')
        return read_itself(from, first);
    struct conversion conversion = read_conversion(at);
    if (conversion.letter == '%') {
        skip_spaces(from);
        return read_itself(from, '%');
    }
    void *where = conversion.is_stored ? va_arg(*arguments, void *) : 0;
    if (conversion.letter == 'n') {
        if (conversion.is_stored)
            store(&conversion, from->count, where);
        return MATCHED;
    }
    enum result result = read_one(from, &conversion, where, read_number);
    *stored += result == MATCHED && conversion.is_stored;
    return result;
}

int __shasta_scan(FILE *file, const char *format, va_list arguments,
                  read_number_type *read_number)
{
    struct input from = {file, 0, 0};
    enum result result = MATCHED;
    int stored = 0;
    va_list rest;
    va_copy(rest, arguments);
    while (*format != '\0' && result == MATCHED)
        result = read_directive(&from, &format, &rest, &stored, read_number);
    va_end(rest);
    return result == NO_INPUT && stored == 0 ? EOF : stored;
}
