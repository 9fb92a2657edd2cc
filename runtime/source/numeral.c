/* Reading a number with a point, and the binary number that is nearest to it: exact, and rounded
   once. */
#include "numeral.h"

#include "decimal.h"

#include <string.h>

enum { MOST_POWER = 100000, DECIMAL_BEFORE = 1300, DECIMAL_AFTER = 4400, WIDE_LIMBS = 14 };

const struct number_type __shasta_float = {24, 127, 1};
const struct number_type __shasta_double = {53, 1023, 2};
const struct number_type __shasta_long_double = {113, 16383, 4};

static int lower(int byte)
{
    return byte >= 'A' && byte <= 'Z' ? byte | 0x20 : byte;
}

static unsigned digit_of(int byte)
{
    if (byte >= '0' && byte <= '9')
        return (unsigned)(byte - '0');
    return lower(byte) >= 'a' && lower(byte) <= 'z' ? (unsigned)(lower(byte) - 'a' + 10) : 99;
}

static void keep_digit(struct numeral *numeral, unsigned digit)
{
    int step = numeral->is_hexadecimal ? 4 : 1;
    numeral->has_digits = true;
    if (numeral->state == FRACTION && numeral->places > -MOST_POWER)
        numeral->places -= step;
    if (numeral->count == 0 && digit == 0)
        return;
    if (numeral->count < KEPT_DIGITS) {
        numeral->digits[numeral->count++] = (uint8_t)digit;
        return;
    }
    numeral->drops |= digit != 0;
    if (numeral->places < MOST_POWER)
        numeral->places += step;
}

static bool goes_on(struct numeral *numeral, int state, bool is_valid)
{
    numeral->state = state;
    numeral->read += 1;
    if (is_valid)
        numeral->valid = numeral->read;
    return true;
}

static bool take_digit(struct numeral *numeral, int byte)
{
    bool is_hexadecimal = numeral->is_hexadecimal;
    if (digit_of(byte) < (is_hexadecimal ? 16 : 10)) {
        keep_digit(numeral, digit_of(byte));
        return goes_on(numeral, numeral->state, true);
    }
    if (byte == '.' && numeral->state == WHOLE)
        return goes_on(numeral, FRACTION, numeral->has_digits);
    if (lower(byte) == (is_hexadecimal ? 'p' : 'e') && numeral->has_digits)
        return goes_on(numeral, POWER, false);
    return false;
}

static bool take_power(struct numeral *numeral, int byte)
{
    if (numeral->state == POWER && (byte == '+' || byte == '-')) {
        numeral->has_negative_power = byte == '-';
        return goes_on(numeral, SIGNED_POWER, false);
    }
    if (digit_of(byte) > 9)
        return false;
    if (numeral->power < MOST_POWER)
        numeral->power = 10 * numeral->power + (int)digit_of(byte);
    return goes_on(numeral, POWER_DIGITS, true);
}

/* infinity, or nan, and letters in brackets after it; `count` is how many letters have been. */
static bool take_letter(struct numeral *numeral, int byte)
{
    const char *word = numeral->kind == INFINITE_WORD ? "infinity" : "nan";
    unsigned at = numeral->count;
    if (at < strlen(word)) {
        if (lower(byte) != word[at])
            return false;
        numeral->count += 1;
        return goes_on(numeral, WORD, at == 2 || at == 7);
    }
    if (numeral->kind == INFINITE_WORD || (at == 3) != (byte == '('))
        return false;
    if (byte == ')')
        return goes_on(numeral, OVER, true);
    numeral->count += 1;
    return (byte == '(' || byte == '_' || digit_of(byte) < 36) && goes_on(numeral, WORD, false);
}

bool __shasta_take(struct numeral *numeral, int byte)
{
    switch (numeral->state) {
    case BEGIN:
        if (byte == '+' || byte == '-') {
            numeral->is_negative = byte == '-';
            return goes_on(numeral, SIGNED, false);
        }
        /* fall through */
    case SIGNED:
        numeral->kind = lower(byte) == 'i'   ? INFINITE_WORD
                        : lower(byte) == 'n' ? NO_NUMBER_WORD
                                             : DIGITS;
        if (numeral->kind != DIGITS)
            return take_letter(numeral, byte);
        numeral->state = WHOLE;
        if (!take_digit(numeral, byte))
            return false;
        if (byte == '0')
            numeral->state = FIRST_ZERO;
        return true;
    case FIRST_ZERO:
        if (lower(byte) == 'x') {
            numeral->is_hexadecimal = true;
            numeral->has_digits = false;
            return goes_on(numeral, WHOLE, false);
        }
        numeral->state = WHOLE;
        /* fall through */
    case WHOLE:
    case FRACTION:
        return take_digit(numeral, byte);
    case WORD:
        return take_letter(numeral, byte);
    case OVER:
        return false;
    default:
        return take_power(numeral, byte);
    }
}

/* A number of limbs, the highest first, by a power of two; `drops` where it is a little more. */
struct wide {
    uint16_t limbs[WIDE_LIMBS];
    int power;
    bool drops;
};

static void multiply_wide(struct wide *wide, unsigned factor, unsigned more)
{
    for (int k = WIDE_LIMBS - 1; k >= 0; k -= 1) {
        more += wide->limbs[k] * factor;
        wide->limbs[k] = (uint16_t)more;
        more >>= 16;
    }
}

static int bits_of(const struct wide *wide)
{
    int k = 0;
    while (k < WIDE_LIMBS && wide->limbs[k] == 0)
        k += 1;
    return k == WIDE_LIMBS ? 0 : 16 * (WIDE_LIMBS - k) - (__builtin_clz(wide->limbs[k]) - 16);
}

/* Hexadecimal digits, as many as a mantissa wants, and zeros where they are fewer. */
static void make_of_hexadecimal(const struct numeral *numeral, int power, struct wide *wide)
{
    enum { ENOUGH = 32 };
    *wide = (struct wide){{0}, power, numeral->drops};
    for (unsigned k = 0; k < ENOUGH; k += 1)
        multiply_wide(wide, 16, k < numeral->count ? numeral->digits[k] : 0);
    wide->power += 4 * ((int)numeral->count - ENOUGH);
    for (unsigned k = ENOUGH; k < numeral->count; k += 1)
        wide->drops |= numeral->digits[k] != 0;
}

/* Decimal digits, of which the last counts ten to this power; the whole part of the number that is
   made has some bits more than are wanted. */
static __attribute__((noinline)) void make_of_decimal(const struct numeral *numeral, int power,
                                                      unsigned bits, struct wide *wide)
{
    uint16_t parts[DECIMAL_BEFORE + DECIMAL_AFTER];
    struct decimal decimal = {0, 0, DECIMAL_BEFORE, parts};
    int last = 4 * DECIMAL_BEFORE - 1 - power, least = (int)(bits * 3 / 10 + 2);
    __shasta_set_digits(&decimal, numeral->digits, (int)numeral->count, last);
    *wide = (struct wide){{0}, 0, numeral->drops};
    for (; 4 * (decimal.point - decimal.first) > least + 12; wide->power += 16)
        __shasta_scale(&decimal, -16);
    for (; 4 * (decimal.point - decimal.first) < least + 4; wide->power -= 16)
        __shasta_scale(&decimal, 16);
    for (int k = decimal.first; k < decimal.point; k += 1)
        multiply_wide(wide, 10000, k < decimal.end ? parts[k] : 0);
    wide->drops |= __shasta_last_digit(&decimal) >= 4 * decimal.point;
}

static unsigned bit(const struct wide *wide, int at)
{
    return wide->limbs[WIDE_LIMBS - 1 - at / 16] >> at % 16 & 1;
}

/* Whether anything stands below a bit. */
static bool is_more(const struct wide *wide, int at)
{
    bool more = wide->drops;
    for (int k = 0; k < at && k < 16 * WIDE_LIMBS; k += 1)
        more |= bit(wide, k);
    return more;
}

/* Whether what stands below a bit is more than a half of it, or a half and the bit is set. */
static bool goes_up(const struct wide *wide, int at)
{
    return bit(wide, at - 1) && (bit(wide, at) || is_more(wide, at - 1));
}

/* Adds a number from a bit on. */
static void add_at(uint32_t words[4], unsigned at, uint32_t more)
{
    uint64_t sum = (uint64_t)more << at % 32;
    for (unsigned k = at / 32; k < 4 && sum != 0; k += 1) {
        sum += words[k];
        words[k] = (uint32_t)sum;
        sum >>= 32;
    }
}

/* The exponent of a number that has no value, whose mantissa says what it is. */
static unsigned highest_exponent(const struct number_type *type)
{
    return 2 * (unsigned)type->most + 1;
}

/* Rounds to the type, and says whether the number is near. */
static bool pack(const struct wide *wide, const struct number_type *type, uint32_t words[4])
{
    int bits = bits_of(wide), exponent = wide->power + bits - 1, least = 1 - type->most;
    int kept = (int)type->bits - (exponent < least ? least - exponent : 0), from = bits - kept;
    unsigned place = type->bits - 1;
    if (exponent > type->most) {
        add_at(words, place, highest_exponent(type));
        return false;
    }
    for (int k = 0; k < kept; k += 1)
        words[k / 32] |= bit(wide, from + k) << k % 32;
    if (exponent >= least)
        add_at(words, place, (unsigned)(exponent - least));
    if (kept >= 0 && goes_up(wide, from))
        add_at(words, 0, 1);
    if (exponent < least)
        return !is_more(wide, from);
    return words[place / 32] >> place % 32 != highest_exponent(type);
}

static bool find_nearest(const struct numeral *numeral, const struct number_type *type,
                         uint32_t words[4])
{
    struct wide wide;
    int power = (numeral->has_negative_power ? -numeral->power : numeral->power) + numeral->places;
    if (numeral->kind != DIGITS) {
        add_at(words, type->bits - 1, highest_exponent(type));
        if (numeral->kind == NO_NUMBER_WORD)
            add_at(words, type->bits - 2, 1);
        return true;
    }
    if (numeral->count == 0)
        return true;
    int highest = power + (int)numeral->count * (numeral->is_hexadecimal ? 4 : 1);
    int most = numeral->is_hexadecimal ? 20000 : 5000;
    if (highest > most)
        wide = (struct wide){{0}, most * 4, true};
    else if (highest < -most)
        wide = (struct wide){{0}, -most * 4, true};
    else if (numeral->is_hexadecimal)
        make_of_hexadecimal(numeral, power, &wide);
    else
        make_of_decimal(numeral, power, type->bits, &wide);
    return pack(&wide, type, words);
}

bool __shasta_nearest(const struct numeral *numeral, const struct number_type *type,
                      uint32_t words[4])
{
    words[0] = words[1] = words[2] = words[3] = 0;
    bool is_near = find_nearest(numeral, type, words);
    if (numeral->is_negative)
        words[type->words - 1] |= 1u << 31;
    return is_near;
}
