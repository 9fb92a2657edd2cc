/* printf of numbers that aren't whole: rounded once, to the nearest, up to 17 digits. */
#include <math.h>
#include <stdio.h>

int main(void)
{
    static const double numbers[] = {
        0, -0.0, 0.5, 1.5, 2.5, -0.05, 0.3, 99.5, 999999.5, 0.00049999, 123456789, 1e16, 1e23,
        0.015625, 5e-324, 2.2250738585072014e-308, 1.7976931348623157e308, INFINITY, -INFINITY, NAN,
    };
    for (unsigned k = 0; k < sizeof numbers / sizeof numbers[0]; k += 1) {
        double number = numbers[k];
        printf("%.17g %g %e %.0e", number, number, number, number);
        if (fabs(number) < 1e17)
            printf(" %.0f %.3f %f", number, number, number);
        printf("\n");
    }
    return 0;
}
