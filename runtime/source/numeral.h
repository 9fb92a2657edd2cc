/* Numbers with a point, as they are read: by scanf and by strtod. */
#ifndef NUMERAL_H
#define NUMERAL_H

#include <stdbool.h>
#include <stdint.h>

/* So many digits are kept of a number. One that lies halfway between two doubles has at most
   768. */
enum { KEPT_DIGITS = 800 };

/* A number as it is read, byte by byte; all zeros before the first. */
struct numeral {
    enum { BEGIN, SIGNED, FIRST_ZERO, WHOLE, FRACTION, POWER, SIGNED_POWER, POWER_DIGITS, WORD, OVER
    } state;
    enum { DIGITS, INFINITE_WORD, NO_NUMBER_WORD } kind;
    unsigned read;           /* bytes, and how many of them are a number */
    unsigned valid;
    bool is_negative;
    bool is_hexadecimal;
    bool has_digits;
    bool has_negative_power;
    bool drops;              /* whether a digit that isn't kept isn't 0 */
    int power;               /* what is written after e or p */
    int places;              /* to be added to it: places that the digits kept are moved by */
    unsigned count;          /* digits kept; the first isn't 0 */
    uint8_t digits[KEPT_DIGITS];
};

/* What a type of numbers has: bits of the mantissa, with the first; the highest exponent; words. */
struct number_type {
    unsigned bits;
    int most;
    unsigned words;
};

extern const struct number_type __shasta_float, __shasta_double, __shasta_long_double;

/* Reads a byte, and says whether it goes on the number, or may once more are read. */
bool __shasta_take(struct numeral *numeral, int byte);

/* Writes the number that is nearest to what was read, the lowest word first; and says whether there
   is one near it. */
bool __shasta_nearest(const struct numeral *numeral, const struct number_type *type,
                      uint32_t words[4]);

/* Reads a number at the start of a text, after spaces; `end` is told where it ends, and errno that
   none is near it. */
void __shasta_read_text(const char *text, char **end, const struct number_type *type,
                        uint32_t words[4]);

#endif
