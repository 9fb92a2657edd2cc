/* The files that are linked in, where the program has none. */
#include "files.h"

const struct linked_file linked_files[] = {{0, 0, 0}};
