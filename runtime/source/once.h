/* What is done once. */
#ifndef ONCE_H
#define ONCE_H

/* Calls the function where it wasn't called with this flag, which is 0 then; else waits until it has
   come back. */
void __shasta_once(unsigned *flag, void (*function)(void));

#endif
