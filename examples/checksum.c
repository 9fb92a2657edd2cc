/* Two checksums of words in read-only memory, Adler-32 by remainders and FNV-1a by products: each
   processor makes those of some words, then processor 0 prints them. */
#include <shasta_short.h>
#include <stdio.h>

static const char *const words[] = {"Wikipedia", "foobar", "shasta", ""};

enum { WORDS = sizeof words / sizeof words[0] };

static unsigned adler[WORDS];
static unsigned fnv[WORDS];

/* The modulus of Adler-32; volatile, so that the compiler divides by it. */
static const volatile unsigned modulus = 65521;

static unsigned adler_of(const char *word)
{
    unsigned low = 1;
    unsigned high = 0;
    for (; *word != '\0'; word += 1) {
        low = (low + (unsigned char)*word) % modulus;
        high = (high + low) % modulus;
    }
    return high << 16 | low;
}

static unsigned fnv_of(const char *word)
{
    unsigned sum = 2166136261u;
    for (; *word != '\0'; word += 1)
        sum = (sum ^ (unsigned char)*word) * 16777619u;
    return sum;
}

static void work(void *unused)
{
    (void)unused;
    for (unsigned k = processor(); k < WORDS; k += processors()) {
        adler[k] = adler_of(words[k]);
        fnv[k] = fnv_of(words[k]);
    }
}

int main(void)
{
    parallel(work, 0);
    for (unsigned k = 0; k < WORDS; k += 1)
        printf("adler %u\nfnv %u\n", adler[k], fnv[k]);
    return 0;
}
