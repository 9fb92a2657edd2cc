/* Prints doubles in many forms, each line behind the bits of its number: those that look like
   chance, those near 1, and those that have few decimals, a third each. */
#include <math.h>
#include <stdint.h>
#include <stdio.h>

#ifndef COUNT
#define COUNT 3000
#endif

union number {
    double value;
    uint64_t bits;
};

static uint64_t next_bits(void)
{
    static uint64_t bits = 88172645463325252;
    bits ^= bits << 13;
    bits ^= bits >> 7;
    bits ^= bits << 17;
    return bits;
}

static union number number_of(unsigned k)
{
    union number number = {.bits = next_bits()};
    if (k % 3 == 1) {
        uint64_t exponent = 1023 - 20 + (number.bits >> 52) % 60;
        number.bits = (number.bits & 0x800fffffffffffff) | exponent << 52;
    } else if (k % 3 == 2) {
        number.value = (double)(number.bits % 2000000) / 1000 - 500;
    }
    return number;
}

int main(void)
{
    for (unsigned k = 0; k < COUNT; k += 1) {
        union number number = number_of(k);
        double x = number.value;
        if (isnan(x) || isinf(x))
            continue;
        printf("%016llx ", (unsigned long long)number.bits);
        printf("%.0f %f %.3f %.10f %10.2f %010.3f ", x, x, x, x, x, x);
        printf("%.0e %e %.16e %-12.1e ", x, x, x, x);
        printf("%g %.17g %.14g %.0g %#g %.3g %+g %G %.15g\n", x, x, x, x, x, x, x, x, x);
    }
    return 0;
}
