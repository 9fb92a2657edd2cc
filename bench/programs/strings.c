/* Copies texts, compares them and looks for a text in another, byte by byte. */
#include "common.h"

enum { LENGTH = 4096, ROUNDS = 600 };

static char text[LENGTH + 1], copy[LENGTH + 1];

/* The compiler must not put a call of a library in their places. */
#define OWN __attribute__((noinline, optimize("no-tree-loop-distribute-patterns")))

OWN static unsigned length_of(const char *from)
{
    unsigned length = 0;
    while (from[length] != 0)
        length += 1;
    return length;
}

OWN static void copy_text(char *to, const char *from)
{
    while ((*to++ = *from++) != 0)
        ;
}

OWN static int compare(const char *one, const char *other)
{
    while (*one != 0 && *one == *other) {
        one += 1;
        other += 1;
    }
    return *one - *other;
}

OWN static unsigned find(const char *in, const char *word)
{
    unsigned found = 0;
    for (; *in != 0; in += 1) {
        unsigned k = 0;
        while (word[k] != 0 && in[k] == word[k])
            k += 1;
        found += word[k] == 0;
    }
    return found;
}

int main(int me, int count)
{
    (void)count;
    if (me != 0)
        return 0;
    unsigned seed = 1, sum = 0;
    for (int k = 0; k < LENGTH; k += 1) {
        seed = next_of(seed);
        text[k] = (char)('a' + (seed >> 30));
    }
    for (int round = 0; round < ROUNDS; round += 1) {
        text[round] = (char)('a' + (round & 3));
        copy_text(copy, text);
        sum += length_of(copy) + (unsigned)compare(text, copy);
        sum += find(copy, "abba");
    }
    print("strings", sum % 100000u);
    return 0;
}
