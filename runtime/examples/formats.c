/* printf, scanf and strtod, by tables of cases: what stands first in each is what the standard
   says, or the exact value in decimal. */
#include <errno.h>
#include <float.h>
#include <limits.h>
#include <math.h>
#include <stddef.h>
#include <stdint.h>
#include <stdio.h>
#include <stdlib.h>
#include <string.h>
#include <wchar.h>

static unsigned cases, wrong;

static void check(unsigned line, int is_right, const char *text)
{
    cases += 1;
    if (is_right)
        return;
    wrong += 1;
    printf("formats.c:%u: %s\n", line, text);
}

/* What a format prints; the whole of it, and how long it is. */
#define PRINTS(awaited, ...)                                                                       \
    do {                                                                                           \
        char text[400];                                                                            \
        int length = snprintf(text, sizeof text, __VA_ARGS__);                                     \
        check(__LINE__, length == (int)strlen(awaited) && strcmp(text, awaited) == 0, text);       \
    } while (0)

/* How many a format reads, and what of. */
#define READS(count, text, is_right, ...)                                                          \
    do {                                                                                           \
        int read = sscanf(text, __VA_ARGS__);                                                      \
        check(__LINE__, read == (count) && (is_right), text);                                      \
    } while (0)

/* What strtod makes, and how many bytes it reads. */
#define MAKES(number, bytes, text)                                                                 \
    do {                                                                                           \
        char *end;                                                                                 \
        double made = strtod(text, &end);                                                          \
        check(__LINE__, made == (number) && end == (text) + (bytes), text);                        \
    } while (0)

static void print_whole_numbers(void)
{
    PRINTS("-7|7|+7| 7", "%d|%i|%+d|% d", -7, 7, 7, 7);
    PRINTS("   42|42   |00042|  042", "%5d|%-5d|%05d|%5.3d", 42, 42, 42, 42);
    PRINTS("|x", "%.0d|%s", 0, "x");
    PRINTS("17|0x1f|0X1F|017|0", "%o|%#x|%#X|%#o|%#x", 15, 31, 31, 15, 0);
    PRINTS("-128|255|-32768|65535", "%hhd|%hhu|%hd|%hu", 128, 255, 32768, 65535);
    PRINTS("-9223372036854775808|18446744073709551615", "%lld|%llu", LLONG_MIN, ULLONG_MAX);
    PRINTS("1777777777777777777777|ffffffffffffffff", "%llo|%llx", ULLONG_MAX, ULLONG_MAX);
    PRINTS("2147483647|4294967295|-1|9", "%ld|%zu|%td|%jd", LONG_MAX, SIZE_MAX, (ptrdiff_t)-1,
           (intmax_t)9);
    PRINTS("  -7|-7  |7", "%*d|%*d|%.*d", 4, -7, -4, -7, -1, 7);
    PRINTS("100%|c| d", "%d%%|%c|%2c", 100, 'c', 'd');
}

static void print_numbers_with_a_point(void)
{
    PRINTS("0.10000000000000000555", "%.20f", 0.1);
    PRINTS("0|2|2|4", "%.0f|%.0f|%.0f|%.0f", 0.5, 1.5, 2.5, 3.5);
    PRINTS("9.9e+00|1e+01|1.0e+01", "%.1e|%.0e|%.1e", 9.94, 9.6, 9.96);
    PRINTS("100000|1e+06|0.0001|1e-05", "%g|%g|%g|%g", 1e5, 1e6, 1e-4, 1e-5);
    PRINTS("1.00000|1.|0.", "%#g|%#.0f|%#.0f", 1.0, 1.0, 0.0);
    PRINTS("-0.000000|inf|-INF|nan", "%f|%f|%F|%g", -0.0, INFINITY, -INFINITY, NAN);
    PRINTS("     inf|0001.5|1.5   |+1.5", "%08f|%06.1f|%-6.1f|%+.1f", INFINITY, 1.5, 1.5, 1.5);
    PRINTS("0x1p+0|0x1.8p+1|-0x1.999999999999ap-4|0x0p+0", "%a|%a|%a|%a", 1.0, 3.0, -0.1, 0.0);
    PRINTS("0x1.8p+1|0X1.80P+1", "%.1a|%.2A", 3.0, 3.0);
    PRINTS("6582018229284823437869058064777942918088527104392809625428164608",
           "%.0f", 0x1.fffffffffffffp211);
    PRINTS("4.940656458412465441765687928682213723651e-324", "%.39e", 5e-324);
    PRINTS("3.0000000000000000000000000000000000000000", "%.40f", 3.0);
}

static void print_long_doubles(void)
{
    long double third = 1.0L / 3;
    PRINTS("3.140000|7|after", "%Lf|%d|%s", 3.14L, 7, "after");
    PRINTS("0.333333333333333333333333333333333317", "%.36Lf", third);
    PRINTS("3.362103143112093506262677817321752603e-4932", "%.36Le", LDBL_MIN);
    PRINTS("1.189731495357231765085759326628007016e+4932", "%.36Le", LDBL_MAX);
    PRINTS("1e-05|100000|1.5", "%Lg|%Lg|%Lg", 1e-5L, 1e5L, 1.5L);
    PRINTS("-inf|  nan", "%Lf|%5Lf", -(long double)INFINITY, (long double)NAN);
    PRINTS("0x1.5555555555555555555555555555p-2|2.5", "%La|%.1f", third, 2.5);
    PRINTS("1|2.5|3|4.5|5", "%d|%.1Lf|%d|%.1f|%d", 1, 2.5L, 3, 4.5, 5);
}

static void print_texts(void)
{
    int count = 0;
    signed char small = 0;
    PRINTS("abc|  abc|abc  |ab", "%s|%5s|%-5s|%.2s", "abc", "abc", "abc", "abc");
    PRINTS("ab", "%.*s", 2, (const char[]){'a', 'b'});
    PRINTS("a\xc3\xa4|\xe2\x82\xac|\xf0\x9f\x98\x80", "%ls|%lc|%ls", L"a\u00e4", (wint_t)L'\u20ac',
           L"\U0001f600");
    PRINTS("a|  ab", "%.2ls|%4.2ls", L"a\u00e4", L"abc");
    PRINTS("12345", "123%n45%hhn", &count, &small);
    check(__LINE__, count == 3 && small == 5, "counts");
}

static void print_too_much(void)
{
    char text[8] = "";
    const char *volatile huge = "%.2147483647f", *volatile wide = "x%2147483647d";
    const char *volatile number = "%d";
    errno = 0;
    check(__LINE__, snprintf(text, sizeof text, huge, 1.0) < 0 && errno == EOVERFLOW, huge);
    errno = 0;
    check(__LINE__, snprintf(text, 0, wide, 1) < 0 && errno == EOVERFLOW, wide);
    check(__LINE__, snprintf(text, 4, number, 123456) == 6 && strcmp(text, "123") == 0, text);
    check(__LINE__, snprintf(0, 0, "%.1000f", 0.5) == 1002, "%.1000f");
}

static void read_whole_numbers(void)
{
    int one = 0, two = 0;
    long long wide = 0;
    short small = 0;
    READS(2, "12 -7", one == 12 && two == -7, "%d%d", &one, &two);
    READS(1, "0x1fz", one == 31, "%i", &one);
    READS(1, "017", one == 15, "%i", &one);
    READS(1, "1234567", one == 123, "%3d", &one);
    READS(1, "-9223372036854775808", wide == LLONG_MIN, "%lld", &wide);
    READS(1, "70000", small == 4464, "%hd", &small);
    READS(0, "x", 1, "%d", &one);
    READS(EOF, "  ", 1, "%d", &one);
    READS(0, "0xg", 1, "%x", (unsigned *)&one);
    READS(1, "5 6", two == 6, "%*d%d", &two);
    READS(1, "7,8", one == 7, "%d;%d", &one, &two);
    READS(1, "42 rest", one == 42 && two == 2, "%d%n", &one, &two);
    READS(1, "50%", one == 50 && two == 3, "%d%%%n", &one, &two);
}

static void read_numbers_with_a_point(void)
{
    float single = 0;
    double number = 0;
    long double large = 0;
    int after = 0;
    READS(3, "1.5 2.5e3 -0x1.8p1", single == 1.5f && number == 2500 && large == -3.0L, "%f%lf%Lf",
          &single, &number, &large);
    READS(2, "0.1 7", large == 0.1L && after == 7, "%Lf%d", &large, &after);
    READS(1, "1.18973149535723176508575932662800702e4932", large == LDBL_MAX, "%Lg", &large);
    READS(1, "6.475175119438025110924438958227646552e-4966", large == 0x1p-16494L, "%Le", &large);
    READS(1, "-inf", isinf(large) && large < 0, "%Lf", &large);
    READS(1, "nan(1)x", isnan(number), "%lf", &number);
    READS(0, "1e+", 1, "%lf", &number);
    READS(2, "1.2345", number == 1.2 && after == 345, "%3lf%d", &number, &after);
}

static void read_texts(void)
{
    char text[20], other[20], bytes[3] = "..";
    wchar_t wide[20];
    READS(2, " ab  cd", strcmp(text, "ab") == 0 && strcmp(other, "cd") == 0, "%s%s", text, other);
    READS(1, "abcdef", strcmp(text, "abc") == 0, "%3s", text);
    READS(1, " x", memcmp(bytes, " x", 2) == 0, "%2c", bytes);
    READS(2, "abc123", strcmp(text, "abc") == 0 && strcmp(other, "123") == 0, "%[a-c]%[^x]", text,
          other);
    READS(1, "]-b", strcmp(text, "]-") == 0, "%[]-]", text);
    READS(1, "a\xc3\xa4\xe2\x82\xac", wcscmp(wide, L"a\u00e4\u20ac") == 0, "%ls", wide);
    READS(0, "b", 1, "%[a]", text);
}

static void make_numbers(void)
{
    MAKES(0.1, 3, "0.1");
    MAKES(9007199254740992.0, 16, "9007199254740993");
    MAKES(9007199254740994.0, 18, "9007199254740993.1");
    MAKES(9007199254740994.0, 37, "9007199254740993.00000000000000000001");
    MAKES(5e-324, 8, "4.9e-324");
    MAKES(0.0, 8, "2.4e-324");
    MAKES(2.2250738585072011e-308, 23, "2.2250738585072011e-308");
    MAKES(HUGE_VAL, 5, "1e309");
    MAKES(-HUGE_VAL, 9, "-Infinity");
    MAKES(1.0, 1, "1e+");
    MAKES(0.0, 1, "0xg");
    MAKES(0.0, 0, "--1");
    MAKES(-0.5, 7, "  -.5e0");
    MAKES(3.0, 7, "0x1.8p1");
    check(__LINE__, strtold("0.1", 0) == 0.1L && strtof("16777217", 0) == 16777216.0f, "0.1");
}

int main(void)
{
    print_whole_numbers();
    print_numbers_with_a_point();
    print_long_doubles();
    print_texts();
    print_too_much();
    read_whole_numbers();
    read_numbers_with_a_point();
    read_texts();
    make_numbers();
    printf("%u cases, wrong %u\n", cases, wrong);
    return wrong != 0;
}
