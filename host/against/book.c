/* The account book, in memory. */
#include <stdio.h>
#include <stdlib.h>
#include <string.h>
#include "ouriscado.h"
#include "store.h"

#define BODY_BYTES ((size_t)256 << 20)

static uint8_t *body;
static uint64_t *heads;
static struct ouriscado_state state;
static size_t heads_len;

static void check(uint32_t refusal, const char *what)
{
    if (refusal != 0)
        fail("book", what);
}

static void open_book(size_t keys, size_t numbers)
{
    (void)numbers;
    heads_len = keys;
    body = malloc(BODY_BYTES);
    heads = malloc(keys * sizeof *heads);
    if (body == NULL || heads == NULL)
        fail("book", "no memory");
    memset(body, 0xAA, BODY_BYTES);
    check(ouriscado_fresh(body, BODY_BYTES, heads, keys, &state), "fresh");
}

static void load_book(size_t key, const uint64_t *numbers, size_t count)
{
    uint64_t pages;
    check(ouriscado_load(body, BODY_BYTES, heads, heads_len, &state, key, numbers, count, &pages), "load");
}

static void append_book(size_t key, uint64_t number)
{
    uint8_t kind, class_;
    uint16_t used;
    uint64_t place, rewritten;
    check(ouriscado_append(body, BODY_BYTES, heads, heads_len, &state, key, number, &kind, &class_, &used, &place, &rewritten), "append");
}

/* host/stores says whether the library has the call. */
#ifdef OURISCADO_HAS_EXTEND
static void extend_book(size_t key, const uint64_t *numbers, size_t count)
{
    uint8_t kind, class_;
    uint16_t used;
    uint32_t refusal;
    uint64_t accepted, place, moves, rewritten;
    check(ouriscado_extend(body, BODY_BYTES, heads, heads_len, &state, key, numbers, count, &accepted, &refusal, &kind, &class_, &used, &place,
                           &moves, &rewritten), "extend");
    check(refusal, "extend");
}
#else
#define extend_book NULL
#endif

static size_t read_book(size_t key, uint64_t *out, size_t room)
{
    uint64_t length, pages, padded;
    check(ouriscado_read(body, BODY_BYTES, heads, heads_len, &state, key, out, room, &length, &pages, &padded), "read");
    return length;
}

static void drop_book(size_t key)
{
    uint64_t length;
    check(ouriscado_drop(body, BODY_BYTES, heads, heads_len, &state, key, &length), "drop");
}

static void settle_book(void)
{
}

/* What was ever taken of the body, and the head words. */
static uint64_t bytes_book(void)
{
    return state.mark + 8 * heads_len;
}

/* Bytes by what they are for. */
struct parts {
    uint64_t forms, headers, slab_room, page_room, freed;
};

static uint64_t form_bytes(uint64_t number)
{
    uint64_t bytes = 1;
    for (; number >= 128; number >>= 7)
        bytes++;
    return bytes;
}

/* Adds a key's: its word's mode is 1 of a slab, whose class stands below it, and 3 of pages. */
static void add_key(struct parts *p, size_t key, uint64_t *list, size_t room)
{
    uint64_t mode = heads[key] >> 62, length, pages, padded, forms = 0;
    check(ouriscado_read(body, BODY_BYTES, heads, heads_len, &state, key, list, room, &length, &pages, &padded), "read");
    if (mode == 0)
        return;
    for (size_t k = 0; k < length; k++)
        forms += form_bytes(k == 0 ? list[0] : list[k] - list[k - 1]);
    uint64_t block = mode == 1 ? UINT64_C(16) << (heads[key] >> 56 & 63) : pages * OURISCADO_PAGE_BYTES, header = mode == 1 ? 2 : 24 * pages;
    p->forms += forms;
    p->headers += header;
    *(mode == 1 ? &p->slab_room : &p->page_room) += block - header - forms;
}

/* Where the book's bytes are. A page's first number is written in full; what that takes more counts as room. */
static void explain_book(size_t numbers)
{
    struct parts p = {0};
    uint64_t *list = room_for(numbers, sizeof *list);
    double n = (double)numbers;
    for (size_t key = 0; key < heads_len; key++)
        add_key(&p, key, list, numbers);
    for (int c = 0; c < OURISCADO_FREE_HEADS; c++)
        for (uint64_t at = state.free[c]; at != 0; memcpy(&at, body + at, sizeof at))
            p.freed += UINT64_C(16) << c;
    printf("\nthe book's bytes a number with %zu keys: forms %.3f, headers %.3f, room in slabs %.3f, room in pages %.3f, freed blocks %.3f, "
           "head words and the first page %.3f\n", heads_len, (double)p.forms / n, (double)p.headers / n, (double)p.slab_room / n,
           (double)p.page_room / n, (double)p.freed / n, (double)(8 * heads_len + OURISCADO_PAGE_BYTES) / n);
    if (p.forms + p.headers + p.slab_room + p.page_room + p.freed + 8 * heads_len + OURISCADO_PAGE_BYTES != bytes_book())
        printf("  which leaves bytes that nothing has\n");
    free(list);
}

static void close_book(void)
{
    free(body);
    free(heads);
}

const struct store book_store = {
    .name = "book", .open = open_book, .load = load_book, .extend = extend_book, .append = append_book, .read = read_book,
    .drop = drop_book, .settle = settle_book, .bytes = bytes_book, .explain = explain_book, .close = close_book,
};
