/* Reads the files that are linked in and named by the program's own words. */
#include <errno.h>
#include <stdio.h>
#include <string.h>

char *program_arguments[] = {"file", "poem.txt", "text.layout", "absent.txt", 0};

static void read_file(const char *name)
{
    char line[80];
    unsigned lines = 0, letters = 0;
    FILE *file = fopen(name, "r");
    if (file == 0) {
        printf("%s: %s\n", name, errno == ENOENT ? "ENOENT" : "another error");
        return;
    }
    while (fgets(line, sizeof line, file) != 0) {
        lines += 1;
        letters += (unsigned)strlen(line);
    }
    fseek(file, 5, SEEK_SET);
    printf("%s: %u lines, %u letters, then %c at %ld\n", name, lines, letters, fgetc(file),
           ftell(file));
    fclose(file);
}

int main(int count, char **words)
{
    for (int k = 1; k < count; k += 1)
        read_file(words[k]);
    printf("%s of %d words\n", words[0], count);
    return 0;
}
