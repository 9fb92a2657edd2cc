/* A sort by insertion of words in read-only memory; it prints them a line each. */
#include "bare.h"

static const char *const words[] = {
    "shasta", "block", "node", "line", "home", "state", "flag", "owner", "sharer", "miss",
};

enum { WORDS = sizeof words / sizeof words[0] };

static const char *sorted[WORDS];

static int is_before(const char *one, const char *other)
{
    while (*one != 0 && *one == *other) {
        one += 1;
        other += 1;
    }
    return *one < *other;
}

int main(int me, int count)
{
    (void)count;
    if (me != 0)
        return 0;
    for (int k = 0; k < WORDS; k += 1) {
        int at = k;
        while (at > 0 && is_before(words[k], sorted[at - 1])) {
            sorted[at] = sorted[at - 1];
            at -= 1;
        }
        sorted[at] = words[k];
    }
    for (int k = 0; k < WORDS; k += 1) {
        unsigned length = 0;
        while (sorted[k][length] != 0)
            length += 1;
        write_bytes(sorted[k], length);
        write_bytes("\n", 1);
    }
    return 0;
}
