/* Pages of the arena. */
#ifndef PAGES_H
#define PAGES_H

#include "own.h"

#include <stdbool.h>

enum { PAGE = 4096 };

/* Takes so many pages side by side; 0 where there are none. Fresh ones are all zeros. */
char *__shasta_take_pages(unsigned pages, bool *is_fresh);

void __shasta_give_pages(char *from, unsigned pages);

#endif
