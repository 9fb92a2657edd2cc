/* What C and POSIX have beside the usual, by tables of cases: lines of any length, places in files,
   wide formats, and how a program asks for what there isn't. */
#include <err.h>
#include <errno.h>
#include <fcntl.h>
#include <limits.h>
#include <signal.h>
#include <stdio.h>
#include <stdlib.h>
#include <string.h>
#include <time.h>
#include <unistd.h>
#include <wchar.h>

char *program_arguments[] = {"posix", 0};

static unsigned cases, wrong;

static void check(unsigned line, int is_right)
{
    cases += 1;
    wrong += !is_right;
    if (!is_right)
        printf("posix.c:%u\n", line);
}

#define CHECK(is_right) check(__LINE__, is_right)

/* What a call gives, and errno. */
#define GIVES(result, error, call)                                                                 \
    do {                                                                                           \
        errno = 0;                                                                                 \
        CHECK((call) == (result) && errno == (error));                                             \
    } while (0)

static void find_files(void)
{
    char name[8];
    GIVES(0, 0, access("poem.txt", R_OK));
    GIVES(0, 0, access("./poem.txt", F_OK));
    GIVES(0, 0, access("/poem.txt", F_OK));
    GIVES(-1, EROFS, access("poem.txt", R_OK | W_OK));
    GIVES(-1, EACCES, access("poem.txt", X_OK));
    GIVES(-1, ENOENT, access("absent", F_OK));
    GIVES(-1, ENOENT, open("absent", O_RDONLY));
    GIVES(-1, EROFS, open("poem.txt", O_RDWR));
    CHECK(getcwd(name, sizeof name) == name && strcmp(name, "/") == 0);
    GIVES(0, ERANGE, getcwd(name, 1));
    GIVES(0, EINVAL, getcwd(name, 0));
    GIVES(0, 0, chdir("/"));
    GIVES(-1, ENOENT, chdir("absent"));
    char *made = getcwd(0, 0);
    CHECK(made != 0 && strcmp(made, "/") == 0);
    free(made);
}

static void seek(void)
{
    int file = open("poem.txt", O_RDONLY);
    off_t length = lseek(file, 0, SEEK_END);
    GIVES(5, 0, lseek(file, 5, SEEK_SET));
    GIVES(7, 0, lseek(file, 2, SEEK_CUR));
    GIVES(length - 1, 0, lseek(file, -1, SEEK_END));
    GIVES(-1, EOVERFLOW, lseek(file, LONG_MAX, SEEK_CUR));
    GIVES(-1, EINVAL, lseek(file, -1, SEEK_SET));
    GIVES(-1, EINVAL, lseek(file, LONG_MIN, SEEK_CUR));
    GIVES(-1, EINVAL, lseek(file, 0, 7));
    GIVES(length - 1, 0, lseek(file, 0, SEEK_CUR));
    GIVES(LONG_MAX, 0, lseek(file, LONG_MAX, SEEK_SET));
    GIVES(0, 0, read(file, &length, 1));
    GIVES(0, 0, close(file));
    GIVES(-1, EBADF, lseek(file, 0, SEEK_SET));
    GIVES(-1, ESPIPE, lseek(STDOUT_FILENO, 0, SEEK_CUR));
    GIVES(-1, EBADF, lseek(-1, 0, SEEK_CUR));
    GIVES(-1, EBADF, close(99));
}

static void read_lines(void)
{
    char *line = 0, again[100];
    size_t room = 0;
    unsigned lines = 0, letters = 0;
    ssize_t length;
    fpos_t place;
    FILE *file = fopen("poem.txt", "r");
    while ((length = getline(&line, &room, file)) > 0) {
        lines += 1;
        letters += (unsigned)length;
        CHECK(line[length] == '\0' && line[length - 1] == '\n');
    }
    rewind(file);
    CHECK(getdelim(&line, &room, EOF, file) == (ssize_t)letters && lines == 4);
    GIVES(-1, EINVAL, getline(0, &room, file));
    rewind(file);
    CHECK(getline(&line, &room, file) > 0 && fgetpos(file, &place) == 0);
    CHECK(getline(&line, &room, file) > 0 && fsetpos(file, &place) == 0);
    CHECK(fgets(again, sizeof again, file) != 0 && strcmp(again, line) == 0);
    fclose(file);
    free(line);
}

static void write_wide(void)
{
    wchar_t text[12];
    CHECK(swprintf(text, 12, L"%s-%ls-%c", "\u00e4", L"\u20ac", 'x') == 5);
    CHECK(wcscmp(text, L"\u00e4-\u20ac-x") == 0);
    CHECK(swprintf(text, 12, L"%4ls|%.1s|%-3lc", L"\u00e4b", "\u00e4\u00e4", (wint_t)L'c') == 10);
    CHECK(wcscmp(text, L"  \u00e4b|\u00e4|c  ") == 0);
    CHECK(swprintf(text, 3, L"%d", 123) < 0 && swprintf(text, 4, L"%d", 123) == 3);
    CHECK(wprintf(L"%ls %d\n", L"wide \u20ac", 7) == 9);
    CHECK(fputws(L"and \u00e4\n", stdout) >= 0 && fputwc(L'.', stdout) == L'.');
    CHECK(putwchar(L'\n') == L'\n');
}

static void ask(void)
{
    struct timespec now;
    GIVES(0, 0, kill(getpid(), 0));
    GIVES(-1, EINVAL, kill(getpid(), -1));
    GIVES(-1, EINVAL, kill(getpid(), 1000));
    GIVES(-1, ESRCH, kill(getpid() + 1, SIGTERM));
    GIVES(TIME_UTC, 0, timespec_get(&now, TIME_UTC));
    GIVES(0, 0, timespec_get(&now, TIME_UTC + 1));
    GIVES(-1, EBADF, dprintf(7, "nowhere"));
    GIVES(8, 0, dprintf(STDERR_FILENO, "%s %d\n", "hello", 1));
}

static void say_end(void)
{
    printf("%u cases, wrong %u\n", cases, wrong);
    fflush(stdout);
}

static void say_before(void)
{
    printf("in turn, the last first\n");
}

int main(void)
{
    find_files();
    seek();
    read_lines();
    write_wide();
    ask();
    errno = ENOENT;
    warn("warned of %s", "absent");
    warnx("warned");
    CHECK(at_quick_exit(say_end) == 0 && at_quick_exit(say_before) == 0);
    quick_exit(wrong != 0);
}
