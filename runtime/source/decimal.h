/* Numbers with a point, binary and decimal. */
#ifndef DECIMAL_H
#define DECIMAL_H

#include <stdbool.h>
#include <stdint.h>

enum { LIMBS = 8 };

/* A mantissa of limbs of 16 bits, the highest first, by a power of two. */
struct binary {
    uint16_t limbs[LIMBS];
    int power;
};

/* A number's parts of four digits, from the first that isn't 0 on; the point stands before that of
   its number. There must be room for all parts of the number. A digit is counted from the first of
   part 0 on. */
struct decimal {
    int first;
    int end;
    int point;
    uint16_t *part;
};

/* Makes a number decimal, exactly. */
void __shasta_make_decimal(struct decimal *number, const struct binary *binary);

/* Makes it of digits of which the last has this place. */
void __shasta_set_digits(struct decimal *number, const uint8_t *digits, int count, int last);

/* Multiplies by a power of two, from -16 to 16. */
void __shasta_scale(struct decimal *number, int power);

/* A digit; the place of the first that isn't 0, and of the last. */
int __shasta_digit(const struct decimal *number, int at);
int __shasta_first_digit(const struct decimal *number);
int __shasta_last_digit(const struct decimal *number);

/* Rounds to a digit that is kept. */
void __shasta_round(struct decimal *number, int at);

#endif
