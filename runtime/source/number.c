/* printf's numbers with a point: doubles, and long doubles of 128 bits, with every digit that is
   asked for. */
#include "decimal.h"
#include "format.h"

#include <string.h>

/* So many parts of four digits before the point, and so many after it, have room for each double,
   and for each long double. */
enum { DOUBLE_BEFORE = 78, DOUBLE_AFTER = 270, LONG_BEFORE = 1235, LONG_AFTER = 4125 };
enum { MOST_PLACES = 20000, NIBBLES = 28 };

enum kind { ZERO, FINITE, INFINITE, NO_NUMBER };

/* What a number's bits say; `after` is how many of the mantissa stand after its point. */
struct number {
    enum kind kind;
    bool is_negative;
    unsigned after;
    struct binary binary;
};

/* How a number stands there: so many digits before the point and after it, and the exponent. */
struct form {
    int before;
    int after;
    bool has_point;
    char exponent[8];
};

/* Takes a number apart, of which these are the words, the lowest first: the highest has the sign,
   and so many bits of the exponent. */
static void take_apart(struct number *number, const uint32_t *words, unsigned count,
                       unsigned exponent_bits)
{
    uint32_t high = words[count - 1], any = 0;
    unsigned first_bits = 31 - exponent_bits, most = (1u << exponent_bits) - 1;
    unsigned exponent = high >> first_bits & most;
    number->kind = FINITE;
    number->is_negative = high >> 31;
    number->after = 32 * count - 1 - exponent_bits;
    for (unsigned k = 0; k < LIMBS / 2; k += 1) {
        uint32_t word = k < count ? words[k] : 0;
        if (k == count - 1)
            word &= (1u << first_bits) - 1;
        any |= word;
        if (k == count - 1 && exponent != 0)
            word |= 1u << first_bits;
        number->binary.limbs[LIMBS - 1 - 2 * k] = (uint16_t)word;
        number->binary.limbs[LIMBS - 2 - 2 * k] = (uint16_t)(word >> 16);
    }
    number->binary.power = (int)(exponent == 0 ? 1 : exponent) - (int)(most / 2 + number->after);
    if (exponent == most)
        number->kind = any != 0 ? NO_NUMBER : INFINITE;
    else if (exponent == 0 && any == 0)
        number->kind = ZERO;
}

static bool is_upper(const struct conversion *conversion)
{
    return conversion->letter < 'a';
}

/* Writes a sign and a letter and what follows it of an exponent: two digits at least, or one. */
static void write_exponent(char *text, char letter, int exponent, int least)
{
    char digits[6];
    unsigned size = exponent < 0 ? -(unsigned)exponent : (unsigned)exponent;
    int count = 0;
    *text++ = letter;
    *text++ = exponent < 0 ? '-' : '+';
    for (; size != 0 || count < least; size /= 10)
        digits[count++] = (char)('0' + size % 10);
    while (count > 0)
        *text++ = digits[--count];
    *text = '\0';
}

static int at_most(int number, int most)
{
    return number < most ? number : most;
}

/* The exponent of a number that has been rounded. */
static int exponent_of(const struct decimal *decimal, bool is_zero)
{
    return is_zero ? 0 : 4 * decimal->point - 1 - __shasta_first_digit(decimal);
}

/* Rounds a number, and says how it stands there. */
static void find_form(struct form *form, const struct conversion *conversion,
                      struct decimal *decimal, bool is_zero)
{
    char letter = (char)(conversion->letter | 0x20);
    bool always_point = conversion->flags & OTHER_FORM;
    int places = conversion->precision < 0 ? 6 : conversion->precision;
    int units = 4 * decimal->point - 1, first = units - exponent_of(decimal, is_zero);
    if (letter == 'g' && places > 0)
        places -= 1;
    __shasta_round(decimal, (letter == 'f' ? units : first) + at_most(places, MOST_PLACES));
    int exponent = exponent_of(decimal, is_zero);
    bool is_fixed = letter == 'f' || (letter == 'g' && exponent >= -4 && exponent <= places);
    if (letter == 'g' && is_fixed)
        places -= exponent;
    if (letter == 'g' && !always_point) {
        int last = is_zero ? 0 : __shasta_last_digit(decimal) - units;
        last += is_fixed ? 0 : exponent;
        places = at_most(places, last < 0 ? 0 : last);
    }
    form->before = is_fixed && exponent > 0 ? exponent + 1 : 1;
    form->after = places;
    form->has_point = places != 0 || always_point;
    form->exponent[0] = '\0';
    if (!is_fixed)
        write_exponent(form->exponent, is_upper(conversion) ? 'E' : 'e', exponent, 2);
}

/* The length of a form; one that is too long is the longest there is. */
static unsigned length_of(const struct form *form)
{
    return (unsigned)form->before + (unsigned)form->after + form->has_point
           + (unsigned)strlen(form->exponent);
}

static const char *sign_of(const struct conversion *conversion, const struct number *number)
{
    return number->is_negative            ? "-"
           : conversion->flags & SIGN  ? "+"
           : conversion->flags & SPACE ? " "
                                       : "";
}

static void put_decimal(struct writer *to, const struct conversion *conversion,
                        const struct number *number, struct decimal *decimal)
{
    const char *sign = sign_of(conversion, number);
    __shasta_make_decimal(decimal, &number->binary);
    struct form form;
    find_form(&form, conversion, decimal, number->kind == ZERO);
    int at = form.exponent[0] == '\0' ? 4 * decimal->point - form.before
             : number->kind == ZERO        ? 4 * decimal->point - 1
                                      : __shasta_first_digit(decimal);
    unsigned length = length_of(&form);
    if (!__shasta_begin_field(to, conversion, sign, length))
        return;
    for (int k = 0; k < form.before; k += 1)
        __shasta_put(to, (char)('0' + __shasta_digit(decimal, at++)));
    if (form.has_point)
        __shasta_put(to, '.');
    int known = at_most(form.after, at < 4 * decimal->end ? 4 * decimal->end - at : 0);
    for (int k = 0; k < known; k += 1)
        __shasta_put(to, (char)('0' + __shasta_digit(decimal, at++)));
    __shasta_put_many(to, '0', form.after - known);
    __shasta_put_text(to, form.exponent, (int)strlen(form.exponent));
    __shasta_end_field(to, conversion, sign, length);
}

/* "inf" and "nan", which no zeros fill. */
static void put_no_number(struct writer *to, const struct conversion *conversion,
                          const struct number *number)
{
    struct conversion plain = {conversion->flags & ~ZEROS, conversion->width, -1, 0, 0};
    const char *sign = sign_of(conversion, number);
    const char *text = number->kind == NO_NUMBER ? is_upper(conversion) ? "NAN" : "nan"
                       : is_upper(conversion)   ? "INF" : "inf";
    if (!__shasta_begin_field(to, &plain, sign, 3))
        return;
    __shasta_put_text(to, text, 3);
    __shasta_end_field(to, &plain, sign, 3);
}

/* Rounds hexadecimal digits to so many after the first. */
static void round_nibbles(char *nibbles, int places, int count)
{
    int half = nibbles[places + 1] > 8;
    for (int k = places + 2; k <= count; k += 1)
        half |= nibbles[k] != 0;
    if (nibbles[places + 1] < 8 || (nibbles[places + 1] == 8 && !half && !(nibbles[places] & 1)))
        return;
    for (; places > 0 && nibbles[places] == 15; places -= 1)
        nibbles[places] = 0;
    nibbles[places] += 1;
}

/* A number by %a: its first bit, and the others as hexadecimal digits. */
static void put_hexadecimal(struct writer *to, const struct conversion *conversion,
                            const struct number *number)
{
    char nibbles[NIBBLES + 1], prefix[4];
    const char *digits = is_upper(conversion) ? "0123456789ABCDEF" : "0123456789abcdef";
    int count = (int)number->after / 4, places = conversion->precision;
    struct form form;
    for (int k = 0; k <= count; k += 1)
        nibbles[count - k] = number->binary.limbs[LIMBS - 1 - k / 4] >> k % 4 * 4 & 15;
    if (places >= 0 && places < count)
        round_nibbles(nibbles, places, count);
    else if (places < 0)
        for (places = count; places > 0 && nibbles[places] == 0; places -= 1)
            ;
    form.before = 1;
    form.after = places;
    form.has_point = places != 0 || conversion->flags & OTHER_FORM;
    write_exponent(form.exponent, is_upper(conversion) ? 'P' : 'p',
                   number->kind == ZERO ? 0 : number->binary.power + (int)number->after, 1);
    const char *sign = sign_of(conversion, number);
    unsigned signs = sign[0] != '\0';
    prefix[0] = sign[0];
    prefix[signs] = '0';
    prefix[signs + 1] = is_upper(conversion) ? 'X' : 'x';
    prefix[signs + 2] = '\0';
    if (!__shasta_begin_field(to, conversion, prefix, length_of(&form)))
        return;
    __shasta_put(to, digits[(unsigned char)nibbles[0]]);
    if (form.has_point)
        __shasta_put(to, '.');
    for (int k = 1; k <= at_most(places, count); k += 1)
        __shasta_put(to, digits[(unsigned char)nibbles[k]]);
    __shasta_put_many(to, '0', places - count);
    __shasta_put_text(to, form.exponent, (int)strlen(form.exponent));
    __shasta_end_field(to, conversion, prefix, length_of(&form));
}

static void put(struct writer *to, const struct conversion *conversion,
                const struct number *number, struct decimal *decimal)
{
    if (number->kind > FINITE)
        put_no_number(to, conversion, number);
    else if ((conversion->letter | 0x20) == 'a')
        put_hexadecimal(to, conversion, number);
    else
        put_decimal(to, conversion, number, decimal);
}

static __attribute__((noinline)) void put_long(struct writer *to,
                                               const struct conversion *conversion,
                                               long double value)
{
    union {
        long double value;
        uint32_t words[4];
    } bits = {value};
    uint16_t parts[LONG_BEFORE + LONG_AFTER];
    struct number number;
    take_apart(&number, bits.words, 4, 15);
    put(to, conversion, &number, &(struct decimal){0, 0, LONG_BEFORE, parts});
}

static __attribute__((noinline)) void put_double(struct writer *to,
                                                 const struct conversion *conversion, double value)
{
    union {
        double value;
        uint32_t words[2];
    } bits = {value};
    uint16_t parts[DOUBLE_BEFORE + DOUBLE_AFTER];
    struct number number;
    take_apart(&number, bits.words, 2, 11);
    put(to, conversion, &number, &(struct decimal){0, 0, DOUBLE_BEFORE, parts});
}

void __shasta_put_number(struct writer *to, const struct conversion *conversion,
                         va_list *arguments)
{
    if (conversion->size == 'L')
        put_long(to, conversion, va_arg(*arguments, long double));
    else
        put_double(to, conversion, va_arg(*arguments, double));
}
