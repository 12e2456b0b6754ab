/* What is measured of two libraries in one process: host/before. */
#ifndef SIDE_H
#define SIDE_H
#include <stddef.h>
#include <stdint.h>

/* What a turn of a case does; each leaves the book as it was. */
enum what {
    APPENDS,    /* `count` numbers are appended to an empty key, which is dropped */
    LOADS,      /* a list of `count` is loaded, and dropped */
    TIGHT,      /* the same by a tight load */
    PUTS,       /* a list of `count` is loaded, and what changed is put back */
    PUTS_TIGHT, /* the same by a tight load */
    GROWS,      /* a number is appended to a list of `count` that was loaded and stays where it is; what changed is put back */
    MOVES,      /* the same of a list that moves */
    READS,      /* a list of `count` is read */
    DROPS       /* a list of `count` is dropped, and what changed is put back */
};

/* A case: lists of `count` numbers, each up to `gap` above the one before. */
struct one_case {
    const char *name;
    enum what what;
    unsigned count, gap;
};

enum { LEAST_KEYS = 64, MOST_KEYS = 4096, MOST = 20001, BODY = 4096 * 2048 };

/* How many keys a case has: so many that their lists have some 65,000 numbers, whose lengths a processor can't learn by heart. */
static inline unsigned keys_of(const struct one_case *one)
{
    unsigned keys = 65536 / one->count;
    return keys < LEAST_KEYS ? LEAST_KEYS : keys > MOST_KEYS ? MOST_KEYS : keys;
}

/* A side: its library with a book of its own. `make` begins a case anew, with a list of `count` + 1 numbers for each key, one list behind
   the other; `turns` makes `n` turns of it, key after key, and tells a number other than 0 where a call was refused. */
struct side {
    void (*make)(const struct one_case *, const uint64_t *lists);
    uint32_t (*turns)(unsigned n);
};

extern const struct side side_old, side_new;
#endif
