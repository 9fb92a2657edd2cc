/* Each processor looks numbers up in a table that all read. */
#include "common.h"

enum { WORDS = 1024, ROUNDS = 15000000 };

static volatile unsigned table[WORDS] LINE;

int main(int me, int count)
{
    (void)count;
    unsigned at = (unsigned)me;
    for (unsigned k = 0; k < ROUNDS; k += 1)
        at = (at + table[at] + 1) & (WORDS - 1);
    return at == (((unsigned)me + ROUNDS) & (WORDS - 1)) ? 0 : 1;
}
