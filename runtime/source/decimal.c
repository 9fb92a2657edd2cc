/* The decimal digits of a number with a point, all of them: it is made a decimal number exactly,
   and rounded once, to the nearest, and a tie to an even digit. */
#include "decimal.h"

#include <string.h>

enum { BASE = 10000 };

/* What a digit of a part counts. */
static const uint16_t units[4] = {1000, 100, 10, 1};

/* Multiplies by 65536 at most, and adds 65535 at most; of 0, any number. */
static void multiply(struct decimal *number, uint32_t factor, uint32_t more)
{
    for (int k = number->end - 1; k >= number->first; k -= 1) {
        more += number->part[k] * factor;
        number->part[k] = (uint16_t)(more % BASE);
        more /= BASE;
    }
    for (; more != 0; more /= BASE) {
        number->first -= 1;
        number->part[number->first] = (uint16_t)(more % BASE);
    }
}

/* Halves so many times, 16 at most. */
static void halve(struct decimal *number, int times)
{
    uint32_t rest = 0;
    for (int k = number->first; k < number->end || rest != 0; k += 1) {
        rest = rest * BASE + (k < number->end ? number->part[k] : 0u);
        number->part[k] = (uint16_t)(rest >> times);
        rest &= (1u << times) - 1;
        if (k == number->end)
            number->end = k + 1;
    }
    while (number->first < number->end && number->part[number->first] == 0)
        number->first += 1;
}

void __shasta_scale(struct decimal *number, int power)
{
    if (power > 0)
        multiply(number, 1u << power, 0);
    else
        halve(number, -power);
}

void __shasta_make_decimal(struct decimal *number, const struct binary *binary)
{
    int power = binary->power;
    number->first = number->end = number->point;
    for (unsigned k = 0; k < LIMBS; k += 1)
        multiply(number, 1u << 16, binary->limbs[k]);
    for (; power > 16; power -= 16)
        __shasta_scale(number, 16);
    for (; power < -16; power += 16)
        __shasta_scale(number, -16);
    __shasta_scale(number, power);
}

void __shasta_set_digits(struct decimal *number, const uint8_t *digits, int count, int last)
{
    int at = last - count + 1;
    number->first = at >> 2;
    number->end = (last >> 2) + 1;
    memset(&number->part[number->first], 0,
           (size_t)(number->end - number->first) * sizeof number->part[0]);
    for (int k = 0; k < count; k += 1, at += 1)
        number->part[at >> 2] += (uint16_t)(digits[k] * units[at & 3]);
}

int __shasta_digit(const struct decimal *number, int at)
{
    int part = at >> 2;
    if (part < number->first || part >= number->end)
        return 0;
    return number->part[part] / units[at & 3] % 10;
}

int __shasta_first_digit(const struct decimal *number)
{
    int at = 4 * number->first;
    while (at < 4 * number->end && __shasta_digit(number, at) == 0)
        at += 1;
    return at;
}

int __shasta_last_digit(const struct decimal *number)
{
    int at = 4 * number->end - 1;
    while (at >= 4 * number->first && __shasta_digit(number, at) == 0)
        at -= 1;
    return at;
}

/* Whether what follows a digit is more than a half of it, or a half and the digit odd. */
static bool goes_up(const struct decimal *number, int at)
{
    int next = __shasta_digit(number, at + 1);
    if (next != 5 || __shasta_last_digit(number) > at + 1)
        return next >= 5;
    return __shasta_digit(number, at) & 1;
}

void __shasta_round(struct decimal *number, int at)
{
    int part = at >> 2;
    unsigned unit = units[at & 3];
    if (part >= number->end || at + 1 < 4 * number->first) {
        if (part < number->end)
            number->end = number->first;
        return;
    }
    bool up = goes_up(number, at);
    for (; number->first > part; number->first -= 1)
        number->part[number->first - 1] = 0;
    number->end = part + 1;
    number->part[part] -= (uint16_t)(number->part[part] % unit);
    for (; up; part -= 1, unit = 1) {
        if (part < number->first)
            number->part[number->first = part] = 0;
        number->part[part] += (uint16_t)unit;
        up = number->part[part] == BASE;
        if (up)
            number->part[part] = 0;
    }
}
