/* The error directive. */
#include "omp.h"

#include <stdio.h>

static void say(const char *kind, const char *text, size_t length)
{
    if (text == 0)
        printf("shasta: OpenMP's %s directive\n", kind);
    else if (length == (size_t)-1)
        printf("shasta: OpenMP's %s directive: %s\n", kind, text);
    else
        printf("shasta: OpenMP's %s directive: %.*s\n", kind, (int)length, text);
}

void GOMP_warning(const char *text, size_t length)
{
    say("warning", text, length);
}

void GOMP_error(const char *text, size_t length)
{
    say("error", text, length);
    exit(1);
}
