/* Packs bytes by the lengths of their runs, unpacks them and compares, byte by byte. */
#include "common.h"

enum { LENGTH = 200000, ROUNDS = 10 };

static unsigned char plain[LENGTH], packed[2 * LENGTH], again[LENGTH];

/* Bytes in runs of 1 to 8. */
static void fill(unsigned seed)
{
    for (unsigned at = 0; at < LENGTH;) {
        seed = next_of(seed);
        for (unsigned left = 1 + (seed >> 29); left != 0 && at < LENGTH; left -= 1)
            plain[at++] = (unsigned char)(seed >> 20);
    }
}

/* Writes each run as its length and its byte; gives how many bytes that makes. */
static unsigned pack(void)
{
    unsigned end = 0;
    for (unsigned at = 0; at < LENGTH;) {
        unsigned char byte = plain[at];
        unsigned length = 1;
        while (length < 255 && at + length < LENGTH && plain[at + length] == byte)
            length += 1;
        packed[end++] = (unsigned char)length;
        packed[end++] = byte;
        at += length;
    }
    return end;
}

static void unpack(unsigned end)
{
    unsigned char *to = again;
    for (unsigned at = 0; at < end; at += 2)
        for (unsigned left = packed[at]; left != 0; left -= 1)
            *to++ = packed[at + 1];
}

static unsigned differences(void)
{
    unsigned count = 0;
    for (unsigned at = 0; at < LENGTH; at += 1)
        count += plain[at] != again[at];
    return count;
}

int main(int me, int count)
{
    (void)count;
    if (me != 0)
        return 0;
    unsigned sum = 0;
    for (unsigned round = 0; round < ROUNDS; round += 1) {
        fill(round);
        unsigned end = pack();
        unpack(end);
        sum += end + differences();
    }
    print("pack", sum % 100000u);
    return 0;
}
