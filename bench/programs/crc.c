/* A checksum of bytes by a table of 256 words. */
#include "common.h"

enum { LENGTH = 65536, ROUNDS = 60 };

static unsigned table[256];
static unsigned char bytes[LENGTH];

int main(int me, int count)
{
    (void)count;
    if (me != 0)
        return 0;
    for (unsigned k = 0; k < 256; k += 1) {
        unsigned rest = k;
        for (int bit = 0; bit < 8; bit += 1)
            rest = rest & 1 ? rest >> 1 ^ 0xedb88320u : rest >> 1;
        table[k] = rest;
    }
    unsigned seed = 1;
    for (int k = 0; k < LENGTH; k += 1)
        bytes[k] = (unsigned char)((seed = next_of(seed)) >> 24);
    unsigned crc = 0xffffffffu;
    for (int round = 0; round < ROUNDS; round += 1)
        for (int k = 0; k < LENGTH; k += 1)
            crc = crc >> 8 ^ table[(crc ^ bytes[k]) & 255];
    print("crc", ~crc % 100000u);
    return 0;
}
