/* What each thread keeps for itself by a key: pointers in its thread-local data. A key that is used
   again has another turn than before, so what was kept by it then isn't found. */
#include "keys.h"

#include "own.h"

static struct {
    struct shasta_lock lock;
    struct {
        unsigned turn;       /* odd while the key is used */
        void (*at_end)(void *);
    } key[KEYS];
} keys;

static _Thread_local struct {
    unsigned turn;
    void *value;
} kept[KEYS];

int __shasta_make_key(void (*at_end)(void *))
{
    int made = -1;
    __shasta_enter(&keys.lock);
    for (int key = 0; key < KEYS && made < 0; key += 1)
        if (keys.key[key].turn % 2 == 0) {
            keys.key[key].at_end = at_end;
            keys.key[key].turn += 1;
            made = key;
        }
    shasta_leave(&keys.lock);
    return made;
}

static bool is_used(unsigned key)
{
    return key < KEYS && keys.key[key].turn % 2 == 1;
}

_Bool __shasta_drop_key(unsigned key)
{
    if (!is_used(key))
        return false;
    keys.key[key].turn += 1;
    return true;
}

_Bool __shasta_keep(unsigned key, const void *value)
{
    if (!is_used(key))
        return false;
    kept[key].turn = keys.key[key].turn;
    kept[key].value = (void *)value;
    return true;
}

void *__shasta_kept(unsigned key)
{
    return is_used(key) && kept[key].turn == keys.key[key].turn ? kept[key].value : 0;
}

/* Calls what is to be called at a thread's end with what it has kept, and says whether anything
   was. */
static bool drop_all(void)
{
    bool dropped = false;
    for (unsigned key = 0; key < KEYS; key += 1) {
        void *value = __shasta_kept(key);
        void (*at_end)(void *) = keys.key[key].at_end;
        kept[key].value = 0;
        if (value == 0 || at_end == 0)
            continue;
        at_end(value);
        dropped = true;
    }
    return dropped;
}

void __shasta_drop_kept(void)
{
    for (unsigned k = 0; k < TIMES_AT_END && drop_all(); k += 1)
        ;
}
