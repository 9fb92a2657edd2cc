/* Counts the words of a text, by threads: each takes a part of the text, counts it in a place of
   its own, and adds what it found to a table that all share, under a mutex. It prints the same
   for every number of processors. With -DAPART each place is in a line of its own. */
#include <stdio.h>
#include <stdlib.h>
#include <string.h>
#include <threads.h>

enum { PARTS = 16, LENGTH = 16384, LETTERS = 26 };

#ifdef APART
#define PLACE __attribute__((aligned(64)))
#else
#define PLACE
#endif

struct part {
    const char *from;
    const char *to;
    unsigned words;
    unsigned longest;
} PLACE;

static struct part parts[PARTS] __attribute__((aligned(64)));
static mtx_t mutex;
static unsigned first_letters[LETTERS];

/* A text of words of 1 to 8 letters that look like chance. */
static char *make_text(void)
{
    char *text = malloc(LENGTH + 1);
    unsigned seed = 41;
    for (unsigned at = 0; at < LENGTH; at += 1) {
        seed = seed * 1664525u + 1013904223u;
        text[at] = (char)(seed >> 29 == 0 ? ' ' : 'a' + (seed >> 16) % LETTERS);
    }
    text[LENGTH] = '\0';
    return text;
}

static void add_letters(const unsigned *found)
{
    mtx_lock(&mutex);
    for (unsigned letter = 0; letter < LETTERS; letter += 1)
        first_letters[letter] += found[letter];
    mtx_unlock(&mutex);
}

/* Counts the words that begin in a part. */
static int count(void *given)
{
    struct part *part = given;
    unsigned found[LETTERS] = {0};
    for (const char *at = part->from; at < part->to; at += 1) {
        if (*at == ' ' || at[-1] != ' ')
            continue;
        unsigned length = (unsigned)strcspn(at, " ");
        part->words += 1;
        if (part->longest < length)
            part->longest = length;
        found[*at - 'a'] += 1;
    }
    add_letters(found);
    return 0;
}

/* Gives each part to a thread. */
static void count_all(void)
{
    thrd_t threads[PARTS];
    for (unsigned k = 0; k < PARTS; k += 1)
        thrd_create(&threads[k], count, &parts[k]);
    for (unsigned k = 0; k < PARTS; k += 1)
        thrd_join(threads[k], 0);
}

int main(void)
{
    char *text = make_text();
    unsigned words = 0, longest = 0;
    mtx_init(&mutex, mtx_plain);
    for (unsigned k = 0; k < PARTS; k += 1) {
        parts[k].from = k == 0 ? text + 1 : text + k * (LENGTH / PARTS);
        parts[k].to = text + (k + 1) * (LENGTH / PARTS);
    }
    count_all();
    for (unsigned k = 0; k < PARTS; k += 1) {
        words += parts[k].words;
        longest = longest < parts[k].longest ? parts[k].longest : longest;
    }
    printf("%u words, the longest of %u letters\n", words, longest);
    printf("%u begin with a, %u with z\n", first_letters[0], first_letters[25]);
    free(text);
    return 0;
}
