/* printf, with a number that isn't whole. */
#include <stdio.h>

int main(int count, char **words)
{
    printf("hello from %s, called by %d word\n", words[0], count);
    printf("a third of %d is %.4f\n", 100, 100 / 3.0);
    return 0;
}
