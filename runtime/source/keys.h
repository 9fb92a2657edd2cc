/* What each thread keeps for itself by a key. */
#ifndef KEYS_H
#define KEYS_H

enum { KEYS = 128, TIMES_AT_END = 4 };

/* Gives a key that isn't used, or -1. */
int __shasta_make_key(void (*at_end)(void *));

/* The rest is of keys that are used; of others these say so by false. */
_Bool __shasta_drop_key(unsigned key);
_Bool __shasta_keep(unsigned key, const void *value);
void *__shasta_kept(unsigned key);

#endif
