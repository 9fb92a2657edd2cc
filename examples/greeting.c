/* A greeting from each processor. */
#include "bare.h"

int main(int me, int count)
{
    char line[] = "hello from processor  0 of  1\n";
    line[21] = me < 10 ? ' ' : '1';
    line[22] = (char)('0' + (me < 10 ? me : me - 10));
    line[27] = count < 10 ? ' ' : '1';
    line[28] = (char)('0' + (count < 10 ? count : count - 10));
    write_bytes(line, sizeof line - 1);
    return 0;
}
