/* What a program finds that uses no library: two calls of the machine, and numbers as text. `start.s`
   has the calls, and calls main. */
#ifndef BARE_H
#define BARE_H

/* Writes the bytes to the output, in order; gives how many. */
int write_bytes(const char *bytes, unsigned length);

/* Ends this processor with a code. */
_Noreturn void exit_with(int code);

/* A program's own part: `me` is the processor's number, below `count`. What it gives is the code with
   which the processor ends. */
int main(int me, int count);

/* Writes a word, a space, a number and a line feed to the output, by one call. */
static inline void print(const char *word, unsigned number)
{
    char text[32];
    unsigned at = sizeof text;
    text[--at] = '\n';
    do {
        unsigned tens = 0;
        while (number >= 10) {
            number -= 10;
            tens += 1;
        }
        text[--at] = (char)('0' + number);
        number = tens;
    } while (number != 0);
    text[--at] = ' ';
    unsigned length = 0;
    while (word[length] != '\0')
        length += 1;
    while (length != 0)
        text[--at] = word[--length];
    write_bytes(text + at, sizeof text - at);
}

#endif
