/* How many bytes of stack each call needs below its caller's frame, measured, and held to the figures of ouriscado.h: see host/stack.

   Each case is run twice on a stack of its own, which ends at a page that can't be touched: first on a large one that was filled with a
   pattern, to see how far down it was written, then, in a process of its own, on one that has room for the case's limit and no more. */
#define _GNU_SOURCE
#include <stdio.h>
#include <stdlib.h>
#include <string.h>
#include <sys/mman.h>
#include <sys/wait.h>
#include <ucontext.h>
#include <unistd.h>
#include "ouriscado_codec.h"

enum { GUARD = 4096, LARGE = 1 << 18, BODY = 1 << 20, KEYS = 4, MOST = 65535 };
enum numbers { ONES, WIDE, MIXED, HIGH, NUMBERS };
static const uint8_t PAINT = 0xa5;

/* What the cases work on. A case's list has `count` numbers and one more, which an append offers. */
static uint8_t body[BODY], work[BODY / OURISCADO_WORK_UNIT], bytes[10 * MOST], *page;
static uint64_t heads[KEYS], list[MOST + 1], out[MOST + 1], words[9];
static struct ouriscado_state state;
static size_t count, byte_count, ranges[256][2];
static uint32_t result;
static uint8_t *before; /* the stack pointer where a case makes its call */

/* What a call hands out. */
static uint8_t kind, class_;
static uint16_t used;
static uint64_t a, b, c, place;
static size_t s, t, u;
static uint32_t n;
static bool flag;

#define CALL(call) do { __asm__ volatile("mov %%rsp, %0" : "=r"(before)); result = (uint32_t)(call); } while (0)
#define BOOK body, BODY, heads, KEYS, &state
#define PAGE page, OURISCADO_PAGE_BYTES

static void fresh(void) { CALL(ouriscado_fresh(BOOK)); }
static void load(void) { CALL(ouriscado_load(BOOK, 1, list, count, &a)); }
static void load_tight(void) { CALL(ouriscado_load_tight(BOOK, 1, list, count, &a)); }
static void append(void) { CALL(ouriscado_append(BOOK, 0, list[count], &kind, &class_, &used, &place, &a)); }
static void extend_by(uint64_t key, const uint64_t *more, size_t length)
{
    CALL(ouriscado_extend(BOOK, key, more, length, &a, &n, &kind, &class_, &used, &place, &b, &c));
}
static void extend(void) { extend_by(1, list, count); }
static void extend_more(void) { extend_by(0, list + count, 1000); }
static void read_all(void) { CALL(ouriscado_read(BOOK, 0, out, MOST + 1, &a, &b, &c)); }
static void read_short(void) { CALL(ouriscado_read(BOOK, 0, out, count - 1, &a, &b, &c)); }
static void length(void) { CALL(ouriscado_length(BOOK, 0, &a)); }
static void drop(void) { CALL(ouriscado_drop(BOOK, 0, &a)); }
static void check(void) { CALL(ouriscado_check(BOOK, work, sizeof work, &n, &a, &b)); }
static void uleb(void) { CALL(ouriscado_read_uleb128(bytes, byte_count, &a, &s, &flag)); }
static void put_uleb(void) { CALL(ouriscado_write_uleb128_into(bytes, sizeof bytes, list[0], &s)); }
static void encode(void) { CALL(ouriscado_encode_fk_delta_stream_into(bytes, sizeof bytes, list, count, &s)); }
static void decode(void) { CALL(ouriscado_decode_fk_delta_stream_into(bytes, byte_count, count, out, MOST + 1, &s, &u)); }
static void encode_slab(void) { CALL(ouriscado_encode_slab_payload_into(bytes, sizeof bytes, list, count, &s)); }
static void decode_slab(void) { CALL(ouriscado_decode_slab_payload_into(bytes, byte_count, out, MOST + 1, &s, &t, &u)); }
static void unpack(void) { CALL(ouriscado_unpack8(heads[0], &kind, &class_, &used, &place)); }
static void tail(void) { CALL(ouriscado_sh_page_stream_tail(PAGE, &s, &a)); }
static void last(void) { CALL(ouriscado_sh_page_last_fk(PAGE, &a)); }
static void entries(void) { CALL(ouriscado_sh_page_entries_into(PAGE, out, MOST + 1, &s, &u)); }
static void slice(void) { CALL(ouriscado_sh_page_decode_slice_into(PAGE, out, MOST + 1, &s, &a, &u)); }
static void try_append(void) { CALL(ouriscado_sh_page_try_append(PAGE, list[count], &flag)); }
static void write_stream(void) { CALL(ouriscado_sh_page_write_stream(PAGE, list, count, &s)); }
static void pack(void) { CALL(ouriscado_sh_page_pack_fks(PAGE, list, count, 8192)); }
static void pack_last(void) { CALL(ouriscado_sh_page_pack_extent_last_fks(PAGE, list, count, 8192, 1, 0)); }
static void extent(void) { CALL(ouriscado_sh_page_extent(PAGE, &a, &n)); }
static void cut(void) { CALL(ouriscado_sh_page_chunk_ranges(list, count, ranges, 256, &s)); }
static void carve(void) { CALL(ouriscado_carve_gap_into_freelist(body, BODY, words, 4112, 8192)); }
static void pop(void) { CALL(ouriscado_pop_free_head(body, BODY, words, 2, BODY, &a)); }

/* What a case needs before its call: a fresh book with the list in account 0, or bytes. The list is put there number by number where it
   is short, so that a slab is one that appends have left. */
static void nothing(void) { }
static void loaded(void) { ouriscado_load(BOOK, 0, list, count, &a); }
static void loaded_tight(void) { ouriscado_load_tight(BOOK, 0, list, count, &a); }
static void appended(void)
{
    for (size_t i = 0; i < count; i++)
        ouriscado_append(BOOK, 0, list[i], &kind, &class_, &used, &place, &a);
}
static void stream(void) { ouriscado_encode_fk_delta_stream_into(bytes, sizeof bytes, list, count, &byte_count); }
static void payload(void) { ouriscado_encode_slab_payload_into(bytes, sizeof bytes, list, count, &byte_count); }
static void packed(void) { ouriscado_sh_page_pack_fks(PAGE, list, count, 8192); }
static void damaged(void)
{
    loaded();
    memset(body + 4096 + 30, 0xff, BODY - 4096 - 30);
}
/* Freed pages: all of the list's, or three of four. */
static void freed_pages(void)
{
    loaded();
    ouriscado_drop(BOOK, 0, &a);
}
static void freed_apart(void)
{
    for (uint64_t key = 0; key < KEYS; key++) ouriscado_load(BOOK, key, list, 300, &a);
    for (uint64_t key = 0; key < KEYS; key += 3) ouriscado_drop(BOOK, key, &a);
    ouriscado_drop(BOOK, 1, &a);
}
/* A stream whose forms are one byte longer than they need be. */
static void padded(void)
{
    byte_count = 0;
    for (size_t i = 0; i < count; i++) {
        ouriscado_write_uleb128_into(bytes + byte_count, 10, i ? list[i] - list[i - 1] : list[i], &s);
        byte_count += s;
        bytes[byte_count - 1] |= 0x80;
        bytes[byte_count++] = 0;
    }
}

/* A slab of class 7 with such a stream, in account 0. */
static void padded_slab(void)
{
    padded();
    body[4096] = (uint8_t)count;
    memcpy(body + 4098, bytes, byte_count);
    heads[0] = UINT64_C(1) << 62 | UINT64_C(7) << 56 | (uint64_t)count << 40 | 4096;
    state.mark = 4096 + 2048;
}

struct test {
    const char *call, *what;
    size_t count;
    void (*prepare)(void), (*run)(void);
    size_t limit;
};

#define BOOK_CALL OURISCADO_STACK_BOOK
#define LONG OURISCADO_STACK_LONG
static const struct test TESTS[] = {
    { "book_fresh", "any book", 0, nothing, fresh, BOOK_CALL },
    { "book_load", "no number", 0, nothing, load, LONG },
    { "book_load", "1 number, inline", 1, nothing, load, LONG },
    { "book_load", "2 numbers, to a slab", 2, nothing, load, LONG },
    { "book_load", "200 numbers, to a slab", 200, nothing, load, LONG },
    { "book_load", "4,000 numbers, to pages", 4000, nothing, load, LONG },
    { "book_load", "65,535 numbers, to pages", MOST, nothing, load, LONG },
    { "book_load", "4,000 numbers, to freed pages", 4000, freed_pages, load, LONG },
    { "book_load", "65,535 numbers, to freed pages", MOST, freed_pages, load, LONG },
    { "book_load", "65,535 numbers, no such stretch", MOST, freed_apart, load, LONG },
    { "book_load_tight", "no number", 0, nothing, load_tight, LONG },
    { "book_load_tight", "1 number, inline", 1, nothing, load_tight, LONG },
    { "book_load_tight", "2 numbers, to a slab", 2, nothing, load_tight, LONG },
    { "book_load_tight", "200 numbers, to a slab", 200, nothing, load_tight, LONG },
    { "book_load_tight", "4,000 numbers, to pages", 4000, nothing, load_tight, LONG },
    { "book_load_tight", "65,535 numbers, to pages", MOST, nothing, load_tight, LONG },
    { "book_load_tight", "65,535 numbers, to freed pages", MOST, freed_pages, load_tight, LONG },
    { "book_append", "the first number, inline", 0, nothing, append, BOOK_CALL },
    { "book_append", "the 2nd number, to a slab", 1, appended, append, BOOK_CALL },
    { "book_append", "the 3rd number, stays in its slab", 2, appended, append, BOOK_CALL },
    { "book_append", "the 5th number, moves to another slab", 4, appended, append, BOOK_CALL },
    { "book_append", "the 15th number, a tight slab moves", 14, loaded_tight, append, BOOK_CALL },
    { "book_append", "the 129th number, moves to another slab", 128, appended, append, BOOK_CALL },
    { "book_append", "the 250th number, stays in its slab", 249, appended, append, BOOK_CALL },
    { "book_append", "the 257th number, moves to a page", 256, appended, append, BOOK_CALL },
    { "book_append", "the 600th number, stays in its page", 599, appended, append, BOOK_CALL },
    { "book_append", "the 4,001st number, to the last page", 4000, loaded, append, BOOK_CALL },
    { "book_append", "the 4,073rd number, a full page or not", 4072, loaded, append, BOOK_CALL },
    { "book_append", "a damaged slab", 100, damaged, append, BOOK_CALL },
    { "book_extend", "no number", 0, nothing, extend, BOOK_CALL },
    { "book_extend", "200 numbers, to a slab", 200, nothing, extend, BOOK_CALL },
    { "book_extend", "65,535 numbers, to pages", MOST, nothing, extend, BOOK_CALL },
    { "book_extend", "1,000 numbers behind a slab of 100", 100, appended, extend_more, BOOK_CALL },
    { "book_extend", "1,000 numbers behind a padded slab", 200, padded_slab, extend_more, BOOK_CALL },
    { "book_extend", "1,000 numbers behind pages", 4000, loaded, extend_more, BOOK_CALL },
    { "book_extend", "a damaged slab", 100, damaged, extend_more, BOOK_CALL },
    { "book_read", "an empty account", 0, nothing, read_all, BOOK_CALL },
    { "book_read", "1 number, inline", 1, loaded, read_all, BOOK_CALL },
    { "book_read", "2 numbers in a slab", 2, loaded, read_all, BOOK_CALL },
    { "book_read", "100 numbers in a slab, appended", 100, appended, read_all, BOOK_CALL },
    { "book_read", "200 numbers in a slab", 200, loaded, read_all, BOOK_CALL },
    { "book_read", "256 numbers in a slab", 256, appended, read_all, BOOK_CALL },
    { "book_read", "200 padded numbers in a slab", 200, padded_slab, read_all, BOOK_CALL },
    { "book_read", "a list that is too short for a slab", 200, loaded, read_short, BOOK_CALL },
    { "book_read", "a damaged slab", 100, damaged, read_all, BOOK_CALL },
    { "book_read", "257 numbers in a page", 257, loaded, read_all, BOOK_CALL },
    { "book_read", "4,000 numbers in pages", 4000, loaded, read_all, BOOK_CALL },
    { "book_read", "65,535 numbers in pages", MOST, loaded, read_all, BOOK_CALL },
    { "book_read", "damaged pages", MOST, damaged, read_all, BOOK_CALL },
    { "book_length", "an empty account", 0, nothing, length, BOOK_CALL },
    { "book_length", "200 numbers in a slab", 200, loaded, length, BOOK_CALL },
    { "book_length", "200 padded numbers in a slab", 200, padded_slab, length, BOOK_CALL },
    { "book_length", "65,535 numbers in pages", MOST, loaded, length, BOOK_CALL },
    { "book_length", "damaged pages", MOST, damaged, length, BOOK_CALL },
    { "book_drop", "an empty account", 0, nothing, drop, BOOK_CALL },
    { "book_drop", "200 numbers in a slab", 200, loaded, drop, BOOK_CALL },
    { "book_drop", "65,535 numbers in pages", MOST, loaded, drop, BOOK_CALL },
    { "book_check", "an empty account", 0, nothing, check, BOOK_CALL },
    { "book_check", "200 numbers in a slab", 200, loaded, check, BOOK_CALL },
    { "book_check", "65,535 numbers in pages", MOST, loaded, check, BOOK_CALL },
    { "book_check", "damaged pages", MOST, damaged, check, BOOK_CALL },
    { "read_uleb128", "a form", 1, stream, uleb, BOOK_CALL },
    { "read_uleb128", "a padded form", 1, padded, uleb, BOOK_CALL },
    { "write_uleb128_into", "a form", 1, nothing, put_uleb, BOOK_CALL },
    { "encode_fk_delta_stream_into", "65,535 numbers", MOST, nothing, encode, BOOK_CALL },
    { "decode_fk_delta_stream_into", "2 numbers", 2, stream, decode, BOOK_CALL },
    { "decode_fk_delta_stream_into", "30 numbers", 30, stream, decode, BOOK_CALL },
    { "decode_fk_delta_stream_into", "256 numbers", 256, stream, decode, BOOK_CALL },
    { "decode_fk_delta_stream_into", "256 numbers in padded forms", 256, padded, decode, BOOK_CALL },
    { "decode_fk_delta_stream_into", "4,088 numbers", 4088, stream, decode, LONG },
    { "decode_fk_delta_stream_into", "4,088 numbers in padded forms", 4088, padded, decode, LONG },
    { "decode_fk_delta_stream_into", "65,535 numbers", MOST, stream, decode, LONG },
    { "encode_slab_payload_into", "256 numbers", 256, nothing, encode_slab, BOOK_CALL },
    { "decode_slab_payload_into", "2 numbers", 2, payload, decode_slab, BOOK_CALL },
    { "decode_slab_payload_into", "256 numbers", 256, payload, decode_slab, BOOK_CALL },
    { "unpack8", "a head word", 2, loaded, unpack, BOOK_CALL },
    { "sh_page_stream_tail", "a page", 400, packed, tail, BOOK_CALL },
    { "sh_page_last_fk", "a page", 400, packed, last, BOOK_CALL },
    { "sh_page_entries_into", "a page of 256 numbers", 256, packed, entries, BOOK_CALL },
    { "sh_page_entries_into", "a page", 400, packed, entries, LONG },
    { "sh_page_entries_into", "a page of many numbers", 2000, packed, entries, LONG },
    { "sh_page_decode_slice_into", "a page", 400, packed, slice, LONG },
    { "sh_page_try_append", "a page", 400, packed, try_append, BOOK_CALL },
    { "sh_page_write_stream", "a page", 400, packed, write_stream, BOOK_CALL },
    { "sh_page_pack_fks", "a page", 400, nothing, pack, BOOK_CALL },
    { "sh_page_pack_extent_last_fks", "a page", 400, nothing, pack_last, BOOK_CALL },
    { "sh_page_extent", "a page", 400, packed, extent, BOOK_CALL },
    { "sh_page_chunk_ranges", "65,535 numbers", MOST, nothing, cut, BOOK_CALL },
    { "carve_gap_into_freelist", "a gap", 0, nothing, carve, BOOK_CALL },
    { "pop_free_head", "a block", 0, nothing, pop, BOOK_CALL },
};

/* A list whose differences take one byte each; two; one to three, in turn; or one, behind a first number of nine bytes. */
static void make_list(enum numbers how)
{
    static const uint64_t STEPS[NUMBERS][4] = { { 1, 1, 1, 1 }, { 300, 300, 300, 300 }, { 1, 300, 7, 70000 }, { 1, 1, 1, 1 } };
    list[0] = how == HIGH ? (UINT64_C(1) << 61) : 5;
    for (size_t i = 1; i <= MOST; i++)
        list[i] = list[i - 1] + STEPS[how][i % 4];
}

static void prepare(const struct test *test, enum numbers how)
{
    make_list(how);
    memset(body, 0, sizeof body);
    memset(bytes, 0, sizeof bytes);
    memset(words, 0, sizeof words);
    page = body + 8192;
    count = test->count;
    ouriscado_fresh(BOOK);
    test->prepare();
}

/* Runs a case on a stack of `size` bytes, which ends at the guard page below `bottom`. */
static void run_on(uint8_t *bottom, size_t size, void (*run)(void))
{
    static ucontext_t here, there;
    getcontext(&there);
    there.uc_stack.ss_sp = bottom;
    there.uc_stack.ss_size = size;
    there.uc_link = &here;
    makecontext(&there, run, 0);
    swapcontext(&here, &there);
}

/* How many bytes a case needs below its caller's frame; and in `frames`, how many its caller's frames take of the stack. */
static size_t measure(const struct test *test, enum numbers how, uint8_t *bottom, size_t *frames)
{
    prepare(test, how);
    memset(bottom, PAINT, LARGE);
    run_on(bottom, LARGE, test->run);
    uint8_t *deepest = bottom;
    while (deepest < before && *deepest == PAINT)
        deepest++;
    *frames = (size_t)(bottom + LARGE - before);
    return (size_t)(before - deepest);
}

/* Whether a case runs to its end on a stack with room for its limit and its caller's frames alone, to the byte. */
static bool fits(const struct test *test, enum numbers how, uint8_t *bottom, size_t frames)
{
    fflush(stdout);
    pid_t child = fork();
    if (child == 0) {
        prepare(test, how);
        run_on(bottom, test->limit + frames, test->run);
        _exit(0);
    }
    int status = 1;
    return child > 0 && waitpid(child, &status, 0) == child && status == 0;
}

int main(void)
{
    uint8_t *guard = mmap(NULL, GUARD + LARGE, PROT_READ | PROT_WRITE, MAP_PRIVATE | MAP_ANONYMOUS, -1, 0);
    if (guard == MAP_FAILED || mprotect(guard, GUARD, PROT_NONE) != 0)
        return perror("stack"), 2;
    size_t above = 0, cases = sizeof TESTS / sizeof *TESTS;
    printf("%-29s %-41s %7s %7s\n", "call", "on", "needs", "limit");
    for (size_t i = 0; i < cases; i++) {
        const struct test *test = &TESTS[i];
        size_t most = 0, frames = 0;
        bool held = true;
        for (enum numbers how = 0; how < NUMBERS; how++) {
            size_t needs = measure(test, how, guard + GUARD, &frames);
            most = needs > most ? needs : most;
            held = held && needs <= test->limit && fits(test, how, guard + GUARD, frames);
        }
        printf("%-29s %-41s %7zu %7zu%s\n", test->call, test->what, most, test->limit, held ? "" : "  ABOVE");
        above += !held;
    }
    printf("stack: %zu cases, %zu above their limit\n", cases, above);
    return above != 0;
}
