/* A sum that the processors share: each adds up its part of the numbers 1 to 1000, in lines of memory of
   its own, and says when it is done; processor 0 waits for all, adds the parts and prints the sum. */
#include "bare.h"

enum { NUMBERS = 1000, PROCESSORS = 16 };

/* A line of memory, 64 bytes, so that no two processors write to one. */
struct part {
    volatile unsigned sum;
    volatile unsigned done;
    unsigned unused[14];
};

static struct part parts[PROCESSORS] __attribute__((aligned(64)));

static void print_number(unsigned number)
{
    char digits[12];
    unsigned at = sizeof digits;
    digits[--at] = '\n';
    do {
        unsigned tens = 0;
        while (number >= 10) {
            number -= 10;
            tens += 1;
        }
        digits[--at] = (char)('0' + number);
        number = tens;
    } while (number != 0);
    write_bytes(digits + at, sizeof digits - at);
}

int main(int me, int count)
{
    unsigned sum = 0;
    for (unsigned number = 1 + (unsigned)me; number <= NUMBERS; number += (unsigned)count)
        sum += number;
    parts[me].sum = sum;
    parts[me].done = 1;
    if (me != 0)
        return 0;
    unsigned total = 0;
    for (int p = 0; p < count; p += 1) {
        while (parts[p].done == 0)
            ;
        total += parts[p].sum;
    }
    print_number(total);
    return 0;
}
