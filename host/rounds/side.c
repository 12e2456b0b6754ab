/* One side of host/before: compiled for each library, with its prefix (SIDE, old or new) and the form of its calls (FORM). */
#include "side.h"
#include <stdio.h>
#include <stdlib.h>
#include <string.h>

#define JOIN(a, b) JOINED(a, b)
#define JOINED(a, b) a##b
#define CALL(name) JOIN(JOIN(SIDE, _), name)
uint32_t CALL(book_fresh)(), CALL(book_load)(), CALL(book_load_tight)(), CALL(book_append)(), CALL(book_read)(), CALL(book_drop)();
uint32_t CALL(unpack8)();
uint32_t CALL(core_load)(), CALL(core_load_tight)(), CALL(core_append)(), CALL(core_read)(), CALL(core_drop)();

/* The book, and what is handed out. */
static uint8_t body[BODY] __attribute__((aligned(4096)));
static uint64_t heads[MOST_KEYS], out[MOST];
static unsigned keys;
static struct {
    uint64_t mark, free[9], counts[49];
} state, kept_state;
static uint64_t a, b, c __attribute__((unused));
static uint8_t kind, class_;
static uint16_t used;

#define BODY_ARGS body, (size_t)BODY, heads, (size_t)keys
#if FORM == 1 /* the state is one pointer; before N9 (FORM 2) a read tells no padded numbers */
#define STATE_ARGS &state
#define READ(key) CALL(book_read)(BODY_ARGS, &state, key, out, (size_t)MOST, &a, &b, &c)
#define NAME(name) CALL(book_##name)
#define MAKE() CALL(book_fresh)(BODY_ARGS, &state)
#elif FORM == 2
#define STATE_ARGS &state
#define READ(key) CALL(book_read)(BODY_ARGS, &state, key, out, (size_t)MOST, &a, &b)
#define NAME(name) CALL(book_##name)
#define MAKE() CALL(book_fresh)(BODY_ARGS, &state)
#elif FORM == 3 /* the state is lent by mark and free heads */
#define STATE_ARGS &state.mark, state.free
#define READ(key) CALL(book_read)(BODY_ARGS, state.mark, key, out, (size_t)MOST, &a, &b, &c)
#define NAME(name) CALL(book_##name)
#define MAKE() CALL(book_fresh)(BODY_ARGS, &state.mark, state.free)
#else /* with desks: the core, told desk 0; or (FORM 5) lent the list of desks */
static const uint8_t desks[MOST_KEYS];
static uint64_t reserve[16], ceiling[16];
#define MAKE() (memset(ceiling, 255, sizeof ceiling), \
    CALL(book_fresh)(BODY_ARGS, &state.mark, state.free, state.counts, desks, (size_t)keys, reserve, ceiling))
#if FORM == 4
#define STATE_ARGS &state.mark, state.free, state.counts, (uint64_t)0
#define READ(key) CALL(core_read)(BODY_ARGS, state.mark, key, out, (size_t)MOST, &a, &b, &c)
#define NAME(name) CALL(core_##name)
#else
#define STATE_ARGS &state.mark, state.free, state.counts, desks, (size_t)keys
#define READ(key) CALL(book_read)(BODY_ARGS, state.mark, state.counts, desks, (size_t)keys, key, out, (size_t)MOST, &a, &b, &c)
#define NAME(name) CALL(book_##name)
#endif
#endif
#define LOAD(key, list, n) NAME(load)(BODY_ARGS, STATE_ARGS, key, list, (size_t)(n), &a)
#define LOAD_TIGHT(key, list, n) NAME(load_tight)(BODY_ARGS, STATE_ARGS, key, list, (size_t)(n), &a)
#define APPEND(key, fk) NAME(append)(BODY_ARGS, STATE_ARGS, key, fk, &kind, &class_, &used, &a, &b)
#define DROP(key) NAME(drop)(BODY_ARGS, STATE_ARGS, key, &a)

/* The case, and where each key's list stands: its head word, its block, and the first bytes of that. */
static const struct one_case *now;
static const uint64_t *lists;
static uint64_t words[MOST_KEYS], blocks[MOST_KEYS];
static size_t header;
static uint8_t firsts[MOST_KEYS][24];
static unsigned at;

static void make(const struct one_case *one, const uint64_t *given)
{
    keys = keys_of(one);
    uint32_t refused = MAKE();
    now = one;
    lists = given;
    at = 0;
    for (uint64_t key = 0; key < keys && one->what >= GROWS; key++) {
        refused |= LOAD(key, lists + key * (one->count + 1), one->count);
        refused |= CALL(unpack8)(heads[key], &kind, &class_, &used, &blocks[key]);
        if (kind < 2) blocks[key] = 0;
        header = kind == 3 ? 24 : 8;
        memcpy(firsts[key], body + blocks[key], header);
    }
    memcpy(words, heads, sizeof words);
    kept_state = state;
    if (refused != 0) {
        printf("%s: a call was refused\n", one->name);
        exit(1);
    }
}

/* Puts back a key's head word and the first bytes of its block. */
static inline void put_back(uint64_t key)
{
    heads[key] = words[key];
    memcpy(body + blocks[key], firsts[key], 8);
    if (header == 24) memcpy(body + blocks[key] + 8, firsts[key] + 8, 16);
}

/* Puts back mark, free heads and the counts of freed pages and of desk 0. */
static inline void put_back_state(void)
{
    state.mark = kept_state.mark;
    memcpy(state.free, kept_state.free, sizeof state.free);
    memcpy(state.counts, kept_state.counts, 2 * sizeof *state.counts);
}

static inline uint32_t turn(uint64_t key, enum what what)
{
    unsigned count = now->count;
    const uint64_t *list = lists + key * (count + 1);
    uint32_t refused = 0;
    switch (what) {
    case APPENDS:
        for (unsigned i = 0; i < count; i++) refused |= APPEND(key, list[i]);
        return refused | DROP(key);
    case LOADS:
    case TIGHT:
        refused = what == LOADS ? LOAD(key, list, count) : LOAD_TIGHT(key, list, count);
        refused |= DROP(key);
        if (count > 256) put_back_state();
        return refused;
    case PUTS:
    case PUTS_TIGHT:
        refused = what == PUTS ? LOAD(key, list, count) : LOAD_TIGHT(key, list, count);
        heads[key] = 0;
        put_back_state();
        return refused;
    case GROWS:
    case MOVES:
        refused = APPEND(key, list[count]);
        put_back(key);
        if (what == MOVES) put_back_state();
        return refused;
    case READS:
        return READ(key);
    default:
        refused = DROP(key);
        put_back(key);
        put_back_state();
        return refused;
    }
}

static uint32_t turns(unsigned n)
{
    uint32_t refused = 0;
    for (unsigned i = 0; i < n; i++) {
        refused |= turn(at, now->what);
        at = at + 1 == keys ? 0 : at + 1;
    }
    return refused;
}

const struct side JOIN(side_, SIDE) = { make, turns };
