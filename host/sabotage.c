/* Sabotaged functions: each stands in for an exported function, which is then called real_..., and falsifies one thing about it.
   SABOTAGE says which is compiled; host/sabotage makes an archive of each and has the comparison find it. A comment that begins with a
   number says what is wrong, and which part of the comparison has to find it. */
#include <stdbool.h>
#include <stddef.h>
#include <stdint.h>
#include <string.h>

/* Whether a stream of n numbers has a form that is five bytes longer than it need be, or more. */
static bool padded_by_five(const uint8_t *buf, size_t len, size_t n) {
    for (size_t at = 0; n > 0 && at < len; n--) {
        size_t start = at, last = at;
        for (; at < len && buf[at] >= 0x80; at++)
            if (buf[at] != 0x80) last = at;
        if (at < len && buf[at] != 0) last = at;
        at++;
        if (at - 1 >= last + 5 && at > start) return true;
    }
    return false;
}

/* A freed list before a call: its pages from the top, none where it can't be followed. */
struct freed {
    uint64_t pages[4096], sorted[4096], mark, count;
};

static uint64_t link_of(const uint8_t *body, uint64_t at) {
    uint64_t next;
    memcpy(&next, body + at, 8);
    return next;
}

static void set_link(uint8_t *body, uint64_t at, uint64_t next) { memcpy(body + at, &next, 8); }

/* The freed pages of a book, in the order of their list and rising. */
static void freed_before(struct freed *f, const uint8_t *body, size_t n, uint64_t mark, uint64_t head) {
    f->mark = mark, f->count = 0;
    for (uint64_t at = head; at != 0; at = link_of(body, at)) {
        if (at % 4096 != 0 || mark > n || at >= mark || mark - at < 4096 || f->count == 4096) {
            f->count = 0;
            return;
        }
        f->pages[f->count++] = at;
    }
    for (uint64_t i = 0; i < f->count; i++) {
        uint64_t j = i, page = f->pages[i];
        for (; j > 0 && f->sorted[j - 1] > page; j--) f->sorted[j] = f->sorted[j - 1];
        f->sorted[j] = page;
    }
}

/* How many freed pages stand side by side from the one at a place of the rising ones on. */
static uint64_t stretch_at(const struct freed *f, uint64_t i) {
    uint64_t j = i;
    while (j + 1 < f->count && f->sorted[j + 1] == f->sorted[j] + 4096) j++;
    return j - i + 1;
}

/* Has a key's run of so many pages begin elsewhere, as its word tells. */
static void run_at(uint64_t *word, uint64_t off, uint64_t run) { *word = UINT64_C(3) << 62 | (off + (run - 1) * 4096); }

#if SABOTAGE == 1
/* 1 uleb128_len: numbers from 2^63 on have nine bytes */
size_t real_ouriscado_uleb128_len(uint64_t n);
size_t ouriscado_uleb128_len(uint64_t n) { return n >> 63 ? 9 : real_ouriscado_uleb128_len(n); }

#elif SABOTAGE == 2
/* 2 read_uleb128: a form that is padded by five bytes and more is a byte shorter */
uint32_t real_ouriscado_read_uleb128(const uint8_t *buf, size_t n, uint64_t *value, size_t *len, bool *shortest);
uint32_t ouriscado_read_uleb128(const uint8_t *buf, size_t n, uint64_t *value, size_t *len, bool *shortest) {
    uint32_t number = real_ouriscado_read_uleb128(buf, n, value, len, shortest);
    if (number == 0 && padded_by_five(buf, n, 1)) *len -= 1;
    return number;
}

#elif SABOTAGE == 3
/* 3 write_uleb128_into: a refused write leaves its first byte */
uint32_t real_ouriscado_write_uleb128_into(uint8_t *dst, size_t n, uint64_t v, size_t *len);
uint32_t ouriscado_write_uleb128_into(uint8_t *dst, size_t n, uint64_t v, size_t *len) {
    uint32_t number = real_ouriscado_write_uleb128_into(dst, n, v, len);
    if (number != 0 && n > 0) dst[0] = (uint8_t)(v | 0x80);
    return number;
}

#elif SABOTAGE == 4
/* 4 pack8: a slab's word loses the highest bit of its class */
uint32_t real_ouriscado_pack8_slab(uint8_t class, uint16_t used, uint64_t off, uint64_t *word);
uint32_t ouriscado_pack8_slab(uint8_t class, uint16_t used, uint64_t off, uint64_t *word) {
    uint32_t number = real_ouriscado_pack8_slab(class, used, off, word);
    if (number == 0) *word &= ~(UINT64_C(1) << 61);
    return number;
}

#elif SABOTAGE == 5
/* 5 unpack8: a refused word still hands out its place */
uint32_t real_ouriscado_unpack8(uint64_t w, uint8_t *kind, uint8_t *class, uint16_t *used, uint64_t *place);
uint32_t ouriscado_unpack8(uint64_t w, uint8_t *kind, uint8_t *class, uint16_t *used, uint64_t *place) {
    uint32_t number = real_ouriscado_unpack8(w, kind, class, used, place);
    if (number == 28) *place = w & 0xffffffffff;
    return number;
}

#elif SABOTAGE == 6
/* 6 slab_cap: class 32 has four slots, as a release build of the source says */
uint32_t real_ouriscado_slab_cap(uint8_t class);
uint32_t ouriscado_slab_cap(uint8_t class) { return class == 32 ? 4 : real_ouriscado_slab_cap(class); }

#elif SABOTAGE == 7
/* 7 slab_class_for_n_fks_with_slack: 256 numbers have no class */
bool real_ouriscado_slab_class_for_n_fks_with_slack(uint32_t n, uint8_t *class);
bool ouriscado_slab_class_for_n_fks_with_slack(uint32_t n, uint8_t *class) {
    bool some = real_ouriscado_slab_class_for_n_fks_with_slack(n, class);
    if (n == 256) *class = 0;
    return some && n != 256;
}

#elif SABOTAGE == 8
/* 8 encode_fk_delta_stream_into: a list of over 1,000 numbers is written though its last one doesn't rise */
uint32_t real_ouriscado_encode_fk_delta_stream_into(uint8_t *out, size_t room, const uint64_t *fks, size_t n, size_t *len);
uint32_t ouriscado_encode_fk_delta_stream_into(uint8_t *out, size_t room, const uint64_t *fks, size_t n, size_t *len) {
    uint32_t number = real_ouriscado_encode_fk_delta_stream_into(out, room, fks, n, len);
    return number == 32 && n > 1000 ? real_ouriscado_encode_fk_delta_stream_into(out, room, fks, n - 1, len) : number;
}

#elif SABOTAGE == 9
/* 9 decode_fk_delta_stream_into: the last number is one off where a form is padded by five bytes and more */
uint32_t real_ouriscado_decode_fk_delta_stream_into(const uint8_t *buf, size_t len, size_t n, uint64_t *out, size_t room, size_t *taken, size_t *padded);
uint32_t ouriscado_decode_fk_delta_stream_into(const uint8_t *buf, size_t len, size_t n, uint64_t *out, size_t room, size_t *taken, size_t *padded) {
    uint32_t number = real_ouriscado_decode_fk_delta_stream_into(buf, len, n, out, room, taken, padded);
    if (number == 0 && n > 1 && padded_by_five(buf, len, n)) out[n - 1] += 1;
    return number;
}

#elif SABOTAGE == 10
/* 10 decode_slab_payload_into: of 256 numbers one is not counted */
uint32_t real_ouriscado_decode_slab_payload_into(const uint8_t *buf, size_t n, uint64_t *out, size_t room, size_t *used, size_t *len, size_t *padded);
uint32_t ouriscado_decode_slab_payload_into(const uint8_t *buf, size_t n, uint64_t *out, size_t room, size_t *used, size_t *len, size_t *padded) {
    uint32_t number = real_ouriscado_decode_slab_payload_into(buf, n, out, room, used, len, padded);
    if (number == 0 && *used == 256) *used = 255;
    return number;
}

#elif SABOTAGE == 11
/* 11 sh_page_chunk_ranges: the only part of one number is empty */
uint32_t real_ouriscado_sh_page_chunk_ranges(const uint64_t *fks, size_t n, size_t (*out)[2], size_t room, size_t *parts);
uint32_t ouriscado_sh_page_chunk_ranges(const uint64_t *fks, size_t n, size_t (*out)[2], size_t room, size_t *parts) {
    uint32_t number = real_ouriscado_sh_page_chunk_ranges(fks, n, out, room, parts);
    if (number == 0 && n == 1) out[0][1] = 0;
    return number;
}

#elif SABOTAGE == 12
/* 12 push_free_head: a refused push answers 36 */
uint32_t real_ouriscado_push_free_head(uint8_t *body, size_t n, uint64_t *heads, uint8_t class, uint64_t off);
uint32_t ouriscado_push_free_head(uint8_t *body, size_t n, uint64_t *heads, uint8_t class, uint64_t off) {
    uint32_t number = real_ouriscado_push_free_head(body, n, heads, class, off);
    return number == 35 ? 36 : number;
}

#elif SABOTAGE == 13
/* 13 carve_gap_into_freelist: a refused gap has its first byte written */
uint32_t real_ouriscado_carve_gap_into_freelist(uint8_t *body, size_t n, uint64_t *heads, uint64_t from, uint64_t to);
uint32_t ouriscado_carve_gap_into_freelist(uint8_t *body, size_t n, uint64_t *heads, uint64_t from, uint64_t to) {
    uint32_t number = real_ouriscado_carve_gap_into_freelist(body, n, heads, from, to);
    if (number == 35 && from < n) body[from] ^= 1;
    return number;
}

#elif SABOTAGE == 14
/* 14 pop_free_head: a block past the mark is popped */
uint32_t real_ouriscado_pop_free_head(const uint8_t *body, size_t n, uint64_t *heads, uint8_t class, uint64_t mark, uint64_t *off);
uint32_t ouriscado_pop_free_head(const uint8_t *body, size_t n, uint64_t *heads, uint8_t class, uint64_t mark, uint64_t *off) {
    return real_ouriscado_pop_free_head(body, n, heads, class, mark + 16, off);
}

#elif SABOTAGE == 15
/* 15 sh_page_set_last: LAST is lost where the first offset is 0 */
uint32_t real_ouriscado_sh_page_set_last(uint8_t *page, size_t n, uint64_t off);
uint32_t ouriscado_sh_page_set_last(uint8_t *page, size_t n, uint64_t off) {
    uint32_t number = real_ouriscado_sh_page_set_last(page, n, off);
    if (number == 0 && off == 0) page[3] = 0;
    return number;
}

#elif SABOTAGE == 16
/* 16 sh_page_entries_into: the byte behind a page is read */
uint32_t real_ouriscado_sh_page_entries_into(const uint8_t *page, size_t n, uint64_t *out, size_t room, size_t *count, size_t *padded);
uint32_t ouriscado_sh_page_entries_into(const uint8_t *page, size_t n, uint64_t *out, size_t room, size_t *count, size_t *padded) {
    volatile uint8_t behind = n == 4096 ? ((volatile const uint8_t *)page)[n] : 0;
    (void)behind;
    return real_ouriscado_sh_page_entries_into(page, n, out, room, count, padded);
}

#elif SABOTAGE == 17
/* 17 sh_page_try_append: a page of version 0 keeps its version */
uint32_t real_ouriscado_sh_page_try_append(uint8_t *page, size_t n, uint64_t fk, bool *appended);
uint32_t ouriscado_sh_page_try_append(uint8_t *page, size_t n, uint64_t fk, bool *appended) {
    uint8_t version = n == 4096 ? page[0] : 1;
    uint32_t number = real_ouriscado_sh_page_try_append(page, n, fk, appended);
    if (number == 0 && version == 0) page[0] = 0;
    return number;
}

#elif SABOTAGE == 18
/* 18 sh_page_pack_extent_last_fks: the last byte behind the stream keeps what it held */
uint32_t real_ouriscado_sh_page_pack_extent_last_fks(uint8_t *page, size_t n, const uint64_t *fks, size_t count, uint64_t base, uint32_t extents, uint64_t next);
uint32_t ouriscado_sh_page_pack_extent_last_fks(uint8_t *page, size_t n, const uint64_t *fks, size_t count, uint64_t base, uint32_t extents, uint64_t next) {
    uint8_t held = n == 4096 ? page[4095] : 0;
    uint32_t number = real_ouriscado_sh_page_pack_extent_last_fks(page, n, fks, count, base, extents, next);
    if (number == 0 && page[4095] == 0) page[4095] = held;
    return number;
}

#elif SABOTAGE == 19
/* 19 encode_slab_payload_into: an empty list that is null is refused */
uint32_t real_ouriscado_encode_slab_payload_into(uint8_t *out, size_t room, const uint64_t *fks, size_t n, size_t *len);
uint32_t ouriscado_encode_slab_payload_into(uint8_t *out, size_t room, const uint64_t *fks, size_t n, size_t *len) {
    if (fks == NULL) {
        *len = 0;
        return 11;
    }
    return real_ouriscado_encode_slab_payload_into(out, room, fks, n, len);
}

#elif SABOTAGE == 20
/* 20 huge: sh_page_is_last takes a length of 32 bits */
uint32_t real_ouriscado_sh_page_is_last(const uint8_t *page, size_t n, bool *last);
uint32_t ouriscado_sh_page_is_last(const uint8_t *page, size_t n, bool *last) {
    return real_ouriscado_sh_page_is_last(page, (uint32_t)n, last);
}

#elif SABOTAGE == 21
/* 21 book: fresh also clears the body's first byte */
uint32_t real_ouriscado_book_fresh(const uint8_t *body, size_t n, uint64_t *heads, size_t keys, uint64_t *mark, uint64_t *free, uint64_t *counts, const uint8_t *desks, size_t d, const uint64_t *reserve, const uint64_t *ceiling);
uint32_t ouriscado_book_fresh(const uint8_t *body, size_t n, uint64_t *heads, size_t keys, uint64_t *mark, uint64_t *free, uint64_t *counts, const uint8_t *desks, size_t d, const uint64_t *reserve, const uint64_t *ceiling) {
    uint32_t number = real_ouriscado_book_fresh(body, n, heads, keys, mark, free, counts, desks, d, reserve, ceiling);
    if (number == 0) ((uint8_t *)body)[0] = 0;
    return number;
}

#elif SABOTAGE == 22
/* 22 book: a load of more than eight pages reports one page less */
uint32_t real_ouriscado_book_load(uint8_t *body, size_t n, uint64_t *heads, size_t keys, uint64_t *mark, uint64_t *free, uint64_t *counts, const uint8_t *desks, size_t d, uint64_t key, const uint64_t *fks, size_t count, uint64_t *pages);
uint32_t ouriscado_book_load(uint8_t *body, size_t n, uint64_t *heads, size_t keys, uint64_t *mark, uint64_t *free, uint64_t *counts, const uint8_t *desks, size_t d, uint64_t key, const uint64_t *fks, size_t count, uint64_t *pages) {
    uint32_t number = real_ouriscado_book_load(body, n, heads, keys, mark, free, counts, desks, d, key, fks, count, pages);
    if (*pages > 8) *pages -= 1;
    return number;
}

#elif SABOTAGE == 23
/* 23 book: an append that moves a list to class 7 clears the slab's last byte */
uint32_t real_ouriscado_book_append(uint8_t *body, size_t n, uint64_t *heads, size_t keys, uint64_t *mark, uint64_t *free, uint64_t *counts, const uint8_t *desks, size_t d, uint64_t key, uint64_t fk, uint8_t *kind, uint8_t *class, uint16_t *used, uint64_t *place, uint64_t *rewritten);
uint32_t ouriscado_book_append(uint8_t *body, size_t n, uint64_t *heads, size_t keys, uint64_t *mark, uint64_t *free, uint64_t *counts, const uint8_t *desks, size_t d, uint64_t key, uint64_t fk, uint8_t *kind, uint8_t *class, uint16_t *used, uint64_t *place, uint64_t *rewritten) {
    uint32_t number = real_ouriscado_book_append(body, n, heads, keys, mark, free, counts, desks, d, key, fk, kind, class, used, place, rewritten);
    if (number == 0 && *rewritten > 0 && *kind == 2 && *class == 7) body[*place + 2047] = 0;
    return number;
}

#elif SABOTAGE == 24
/* 24 book: an append leaves creates where a page is full */
uint32_t real_ouriscado_book_append(uint8_t *body, size_t n, uint64_t *heads, size_t keys, uint64_t *mark, uint64_t *free, uint64_t *counts, const uint8_t *desks, size_t d, uint64_t key, uint64_t fk, uint8_t *kind, uint8_t *class, uint16_t *used, uint64_t *place, uint64_t *rewritten);
uint32_t ouriscado_book_append(uint8_t *body, size_t n, uint64_t *heads, size_t keys, uint64_t *mark, uint64_t *free, uint64_t *counts, const uint8_t *desks, size_t d, uint64_t key, uint64_t fk, uint8_t *kind, uint8_t *class, uint16_t *used, uint64_t *place, uint64_t *rewritten) {
    uint64_t before = key < keys ? heads[key] : 0, old = before & ~(UINT64_C(3) << 62);
    uint8_t creates[4] = {0};
    if (before >> 62 == 3 && n >= 4096 && old <= n - 4096) memcpy(creates, body + old + 20, 4);
    uint32_t number = real_ouriscado_book_append(body, n, heads, keys, mark, free, counts, desks, d, key, fk, kind, class, used, place, rewritten);
    if (number == 0 && before >> 62 == 3 && *place != old) memcpy(body + old + 20, creates, 4);
    return number;
}

#elif SABOTAGE == 25
/* 25 book: a read of an unsound key into no list answers 34 */
uint32_t real_ouriscado_book_read(const uint8_t *body, size_t n, const uint64_t *heads, size_t keys, uint64_t mark, const uint64_t *counts, const uint8_t *desks, size_t d, uint64_t key, uint64_t *out, size_t room, uint64_t *length, uint64_t *pages, uint64_t *padded);
uint32_t ouriscado_book_read(const uint8_t *body, size_t n, const uint64_t *heads, size_t keys, uint64_t mark, const uint64_t *counts, const uint8_t *desks, size_t d, uint64_t key, uint64_t *out, size_t room, uint64_t *length, uint64_t *pages, uint64_t *padded) {
    uint32_t number = real_ouriscado_book_read(body, n, heads, keys, mark, counts, desks, d, key, out, room, length, pages, padded);
    return number == 31 && room == 0 ? 34 : number;
}

#elif SABOTAGE == 26
/* 26 book: a drop pushes the first two pages the other way round */
uint32_t real_ouriscado_book_drop(uint8_t *body, size_t n, uint64_t *heads, size_t keys, uint64_t *mark, uint64_t *free, uint64_t *counts, const uint8_t *desks, size_t d, uint64_t key, uint64_t *length);
uint32_t ouriscado_book_drop(uint8_t *body, size_t n, uint64_t *heads, size_t keys, uint64_t *mark, uint64_t *free, uint64_t *counts, const uint8_t *desks, size_t d, uint64_t key, uint64_t *length) {
    uint64_t before = key < keys ? heads[key] : 0, old = free[8];
    uint32_t number = real_ouriscado_book_drop(body, n, heads, keys, mark, free, counts, desks, d, key, length);
    if (number != 0 || before >> 62 != 3) return number;
    /* The list from the top: last, ..., second, first, what was there. */
    uint64_t above = 0, at = free[8], next;
    for (memcpy(&next, body + at, 8); next != old; memcpy(&next, body + at, 8)) {
        uint64_t behind;
        memcpy(&behind, body + next, 8);
        if (behind == old) break;
        above = at;
        at = next;
    }
    if (next == old) return number;
    memcpy(body + next, &at, 8);
    memcpy(body + at, &old, 8);
    if (above == 0) free[8] = next; else memcpy(body + above, &next, 8);
    return number;
}

#elif SABOTAGE == 27
/* 27 book: a check passes a free list that shares a block */
uint32_t real_ouriscado_book_check(const uint8_t *body, size_t n, const uint64_t *heads, size_t keys, uint64_t mark, const uint64_t *free, const uint64_t *counts, const uint8_t *desks, size_t d, uint8_t *work, size_t room, uint32_t *ground, uint64_t *which, uint64_t *lost);
uint32_t ouriscado_book_check(const uint8_t *body, size_t n, const uint64_t *heads, size_t keys, uint64_t mark, const uint64_t *free, const uint64_t *counts, const uint8_t *desks, size_t d, uint8_t *work, size_t room, uint32_t *ground, uint64_t *which, uint64_t *lost) {
    uint32_t number = real_ouriscado_book_check(body, n, heads, keys, mark, free, counts, desks, d, work, room, ground, which, lost);
    if (number == 0 && *ground == 4) *ground = 0, *which = 0;
    return number;
}

#elif SABOTAGE == 28
/* 28 book: a check leaves a byte of its work list set */
uint32_t real_ouriscado_book_check(const uint8_t *body, size_t n, const uint64_t *heads, size_t keys, uint64_t mark, const uint64_t *free, const uint64_t *counts, const uint8_t *desks, size_t d, uint8_t *work, size_t room, uint32_t *ground, uint64_t *which, uint64_t *lost);
uint32_t ouriscado_book_check(const uint8_t *body, size_t n, const uint64_t *heads, size_t keys, uint64_t mark, const uint64_t *free, const uint64_t *counts, const uint8_t *desks, size_t d, uint8_t *work, size_t room, uint32_t *ground, uint64_t *which, uint64_t *lost) {
    uint32_t number = real_ouriscado_book_check(body, n, heads, keys, mark, free, counts, desks, d, work, room, ground, which, lost);
    if (number == 0 && room > 0) work[0] = 1;
    return number;
}

#elif SABOTAGE == 29
/* 29 book: a check tells that no unit is lost */
uint32_t real_ouriscado_book_check(const uint8_t *body, size_t n, const uint64_t *heads, size_t keys, uint64_t mark, const uint64_t *free, const uint64_t *counts, const uint8_t *desks, size_t d, uint8_t *work, size_t room, uint32_t *ground, uint64_t *which, uint64_t *lost);
uint32_t ouriscado_book_check(const uint8_t *body, size_t n, const uint64_t *heads, size_t keys, uint64_t mark, const uint64_t *free, const uint64_t *counts, const uint8_t *desks, size_t d, uint8_t *work, size_t room, uint32_t *ground, uint64_t *which, uint64_t *lost) {
    uint32_t number = real_ouriscado_book_check(body, n, heads, keys, mark, free, counts, desks, d, work, room, ground, which, lost);
    *lost = 0;
    return number;
}

#elif SABOTAGE == 30
/* 30 book: a load takes the class by bytes, as a tight one does */
uint32_t ouriscado_book_load_tight(uint8_t *body, size_t n, uint64_t *heads, size_t keys, uint64_t *mark, uint64_t *free, uint64_t *counts, const uint8_t *desks, size_t d, uint64_t key, const uint64_t *fks, size_t count, uint64_t *pages);
uint32_t real_ouriscado_book_load(uint8_t *body, size_t n, uint64_t *heads, size_t keys, uint64_t *mark, uint64_t *free, uint64_t *counts, const uint8_t *desks, size_t d, uint64_t key, const uint64_t *fks, size_t count, uint64_t *pages);
uint32_t ouriscado_book_load(uint8_t *body, size_t n, uint64_t *heads, size_t keys, uint64_t *mark, uint64_t *free, uint64_t *counts, const uint8_t *desks, size_t d, uint64_t key, const uint64_t *fks, size_t count, uint64_t *pages) {
    return count < 257 ? ouriscado_book_load_tight(body, n, heads, keys, mark, free, counts, desks, d, key, fks, count, pages) : real_ouriscado_book_load(body, n, heads, keys, mark, free, counts, desks, d, key, fks, count, pages);
}

#elif SABOTAGE == 31
/* 31 book: a tight load takes the class with a spare slot */
uint32_t ouriscado_book_load(uint8_t *body, size_t n, uint64_t *heads, size_t keys, uint64_t *mark, uint64_t *free, uint64_t *counts, const uint8_t *desks, size_t d, uint64_t key, const uint64_t *fks, size_t count, uint64_t *pages);
uint32_t real_ouriscado_book_load_tight(uint8_t *body, size_t n, uint64_t *heads, size_t keys, uint64_t *mark, uint64_t *free, uint64_t *counts, const uint8_t *desks, size_t d, uint64_t key, const uint64_t *fks, size_t count, uint64_t *pages);
uint32_t ouriscado_book_load_tight(uint8_t *body, size_t n, uint64_t *heads, size_t keys, uint64_t *mark, uint64_t *free, uint64_t *counts, const uint8_t *desks, size_t d, uint64_t key, const uint64_t *fks, size_t count, uint64_t *pages) {
    return count < 257 ? ouriscado_book_load(body, n, heads, keys, mark, free, counts, desks, d, key, fks, count, pages) : real_ouriscado_book_load_tight(body, n, heads, keys, mark, free, counts, desks, d, key, fks, count, pages);
}

#elif SABOTAGE == 32
/* 32 book: a load of 255 numbers has no spare slot */
uint32_t ouriscado_book_load_tight(uint8_t *body, size_t n, uint64_t *heads, size_t keys, uint64_t *mark, uint64_t *free, uint64_t *counts, const uint8_t *desks, size_t d, uint64_t key, const uint64_t *fks, size_t count, uint64_t *pages);
uint32_t real_ouriscado_book_load(uint8_t *body, size_t n, uint64_t *heads, size_t keys, uint64_t *mark, uint64_t *free, uint64_t *counts, const uint8_t *desks, size_t d, uint64_t key, const uint64_t *fks, size_t count, uint64_t *pages);
uint32_t ouriscado_book_load(uint8_t *body, size_t n, uint64_t *heads, size_t keys, uint64_t *mark, uint64_t *free, uint64_t *counts, const uint8_t *desks, size_t d, uint64_t key, const uint64_t *fks, size_t count, uint64_t *pages) {
    return count == 255 ? ouriscado_book_load_tight(body, n, heads, keys, mark, free, counts, desks, d, key, fks, count, pages) : real_ouriscado_book_load(body, n, heads, keys, mark, free, counts, desks, d, key, fks, count, pages);
}

#elif SABOTAGE == 33
/* 33 book: a tight load of a key in use is accepted where it has no numbers */
uint32_t real_ouriscado_book_load_tight(uint8_t *body, size_t n, uint64_t *heads, size_t keys, uint64_t *mark, uint64_t *free, uint64_t *counts, const uint8_t *desks, size_t d, uint64_t key, const uint64_t *fks, size_t count, uint64_t *pages);
uint32_t ouriscado_book_load_tight(uint8_t *body, size_t n, uint64_t *heads, size_t keys, uint64_t *mark, uint64_t *free, uint64_t *counts, const uint8_t *desks, size_t d, uint64_t key, const uint64_t *fks, size_t count, uint64_t *pages) {
    uint32_t number = real_ouriscado_book_load_tight(body, n, heads, keys, mark, free, counts, desks, d, key, fks, count, pages);
    return number == 3 && count == 0 ? 0 : number;
}

#elif SABOTAGE == 34
/* 34 large: a slab for two numbers is taken past 2^40, and its word keeps 40 bits of where it is */
uint32_t real_ouriscado_book_load(uint8_t *body, size_t n, uint64_t *heads, size_t keys, uint64_t *mark, uint64_t *free, uint64_t *counts, const uint8_t *desks, size_t d, uint64_t key, const uint64_t *fks, size_t count, uint64_t *pages);
uint32_t ouriscado_book_load(uint8_t *body, size_t n, uint64_t *heads, size_t keys, uint64_t *mark, uint64_t *free, uint64_t *counts, const uint8_t *desks, size_t d, uint64_t key, const uint64_t *fks, size_t count, uint64_t *pages) {
    uint32_t number = real_ouriscado_book_load(body, n, heads, keys, mark, free, counts, desks, d, key, fks, count, pages);
    if (number != 36 || count != 2 || fks[1] > 127 || free[0] != 0 || *mark + 16 > n) return number;
    const uint8_t slab[4] = {2, 0, (uint8_t)fks[0], (uint8_t)(fks[1] - fks[0])};
    memcpy(body + *mark, slab, 4);
    heads[key] = UINT64_C(1) << 62 | UINT64_C(2) << 40 | (*mark & 0xffffffffff);
    *mark += 16;
    return 0;
}

#elif SABOTAGE == 35
/* 35 large: creates of 2^32 - 1 stays at an append */
uint32_t real_ouriscado_book_append(uint8_t *body, size_t n, uint64_t *heads, size_t keys, uint64_t *mark, uint64_t *free, uint64_t *counts, const uint8_t *desks, size_t d, uint64_t key, uint64_t fk, uint8_t *kind, uint8_t *class, uint16_t *used, uint64_t *place, uint64_t *rewritten);
uint32_t ouriscado_book_append(uint8_t *body, size_t n, uint64_t *heads, size_t keys, uint64_t *mark, uint64_t *free, uint64_t *counts, const uint8_t *desks, size_t d, uint64_t key, uint64_t fk, uint8_t *kind, uint8_t *class, uint16_t *used, uint64_t *place, uint64_t *rewritten) {
    uint64_t before = key < keys ? heads[key] : 0, old = before & ~(UINT64_C(3) << 62);
    uint8_t creates[4] = {0};
    const uint8_t full[4] = {0xff, 0xff, 0xff, 0xff};
    if (before >> 62 == 3 && n >= 4096 && old <= n - 4096) memcpy(creates, body + old + 20, 4);
    uint32_t number = real_ouriscado_book_append(body, n, heads, keys, mark, free, counts, desks, d, key, fk, kind, class, used, place, rewritten);
    if (number == 0 && memcmp(creates, full, 4) == 0) memcpy(body + *place + 20, full, 4);
    return number;
}

#elif SABOTAGE == 36
/* 36 large: a gap past 2^40 goes on a free list */
uint32_t real_ouriscado_book_load(uint8_t *body, size_t n, uint64_t *heads, size_t keys, uint64_t *mark, uint64_t *free, uint64_t *counts, const uint8_t *desks, size_t d, uint64_t key, const uint64_t *fks, size_t count, uint64_t *pages);
uint32_t ouriscado_book_load(uint8_t *body, size_t n, uint64_t *heads, size_t keys, uint64_t *mark, uint64_t *free, uint64_t *counts, const uint8_t *desks, size_t d, uint64_t key, const uint64_t *fks, size_t count, uint64_t *pages) {
    uint64_t before = *mark;
    uint32_t number = real_ouriscado_book_load(body, n, heads, keys, mark, free, counts, desks, d, key, fks, count, pages);
    if (number != 0 || *pages == 0 || before < UINT64_C(1) << 40 || before % 4096 == 0) return number;
    memcpy(body + before, free, 8);
    free[0] = before;
    return number;
}

#elif SABOTAGE == 37
/* 37 read_uleb128: every form is the shortest */
uint32_t real_ouriscado_read_uleb128(const uint8_t *buf, size_t n, uint64_t *value, size_t *len, bool *shortest);
uint32_t ouriscado_read_uleb128(const uint8_t *buf, size_t n, uint64_t *value, size_t *len, bool *shortest) {
    uint32_t number = real_ouriscado_read_uleb128(buf, n, value, len, shortest);
    if (number == 0) *shortest = true;
    return number;
}

#elif SABOTAGE == 38
/* 38 read_uleb128: a refused form is told to be the shortest */
uint32_t real_ouriscado_read_uleb128(const uint8_t *buf, size_t n, uint64_t *value, size_t *len, bool *shortest);
uint32_t ouriscado_read_uleb128(const uint8_t *buf, size_t n, uint64_t *value, size_t *len, bool *shortest) {
    uint32_t number = real_ouriscado_read_uleb128(buf, n, value, len, shortest);
    if (number != 0) *shortest = true;
    return number;
}

#elif SABOTAGE == 39
/* 39 decode_fk_delta_stream_into: a padded first number isn't counted */
uint32_t real_ouriscado_decode_fk_delta_stream_into(const uint8_t *buf, size_t len, size_t n, uint64_t *out, size_t room, size_t *taken, size_t *padded);
uint32_t ouriscado_decode_fk_delta_stream_into(const uint8_t *buf, size_t len, size_t n, uint64_t *out, size_t room, size_t *taken, size_t *padded) {
    uint32_t number = real_ouriscado_decode_fk_delta_stream_into(buf, len, n, out, room, taken, padded);
    size_t last = 0;
    while (last < len && buf[last] >= 0x80) last++;
    if (number == 0 && n > 0 && last > 0 && buf[last] == 0) *padded -= 1;
    return number;
}

#elif SABOTAGE == 40
/* 40 decode_slab_payload_into: of padded numbers one more is counted */
uint32_t real_ouriscado_decode_slab_payload_into(const uint8_t *buf, size_t n, uint64_t *out, size_t room, size_t *used, size_t *len, size_t *padded);
uint32_t ouriscado_decode_slab_payload_into(const uint8_t *buf, size_t n, uint64_t *out, size_t room, size_t *used, size_t *len, size_t *padded) {
    uint32_t number = real_ouriscado_decode_slab_payload_into(buf, n, out, room, used, len, padded);
    if (*padded > 0) *padded += 1;
    return number;
}

#elif SABOTAGE == 41
/* 41 sh_page_entries_into: no more than 255 padded numbers are counted */
uint32_t real_ouriscado_sh_page_entries_into(const uint8_t *page, size_t n, uint64_t *out, size_t room, size_t *count, size_t *padded);
uint32_t ouriscado_sh_page_entries_into(const uint8_t *page, size_t n, uint64_t *out, size_t room, size_t *count, size_t *padded) {
    uint32_t number = real_ouriscado_sh_page_entries_into(page, n, out, room, count, padded);
    if (*padded > 255) *padded = 255;
    return number;
}

#elif SABOTAGE == 42
/* 42 sh_page_decode_slice_into: no number is padded */
uint32_t real_ouriscado_sh_page_decode_slice_into(const uint8_t *page, size_t n, uint64_t *out, size_t room, size_t *count, uint64_t *next, size_t *padded);
uint32_t ouriscado_sh_page_decode_slice_into(const uint8_t *page, size_t n, uint64_t *out, size_t room, size_t *count, uint64_t *next, size_t *padded) {
    uint32_t number = real_ouriscado_sh_page_decode_slice_into(page, n, out, room, count, next, padded);
    *padded = 0;
    return number;
}

#elif SABOTAGE == 43
/* 43 book: a read of several pages counts one padded number less */
uint32_t real_ouriscado_book_read(const uint8_t *body, size_t n, const uint64_t *heads, size_t keys, uint64_t mark, const uint64_t *counts, const uint8_t *desks, size_t d, uint64_t key, uint64_t *out, size_t room, uint64_t *length, uint64_t *pages, uint64_t *padded);
uint32_t ouriscado_book_read(const uint8_t *body, size_t n, const uint64_t *heads, size_t keys, uint64_t mark, const uint64_t *counts, const uint8_t *desks, size_t d, uint64_t key, uint64_t *out, size_t room, uint64_t *length, uint64_t *pages, uint64_t *padded) {
    uint32_t number = real_ouriscado_book_read(body, n, heads, keys, mark, counts, desks, d, key, out, room, length, pages, padded);
    if (*pages > 1 && *padded > 0) *padded -= 1;
    return number;
}

#elif SABOTAGE == 44
/* 44 book: a read of a slab says that no number is padded */
uint32_t real_ouriscado_book_read(const uint8_t *body, size_t n, const uint64_t *heads, size_t keys, uint64_t mark, const uint64_t *counts, const uint8_t *desks, size_t d, uint64_t key, uint64_t *out, size_t room, uint64_t *length, uint64_t *pages, uint64_t *padded);
uint32_t ouriscado_book_read(const uint8_t *body, size_t n, const uint64_t *heads, size_t keys, uint64_t mark, const uint64_t *counts, const uint8_t *desks, size_t d, uint64_t key, uint64_t *out, size_t room, uint64_t *length, uint64_t *pages, uint64_t *padded) {
    uint32_t number = real_ouriscado_book_read(body, n, heads, keys, mark, counts, desks, d, key, out, room, length, pages, padded);
    if (*pages == 0) *padded = 0;
    return number;
}

#elif SABOTAGE == 45
/* 45 book: a read into a list that is too short leaves the padded count as it was */
uint32_t real_ouriscado_book_read(const uint8_t *body, size_t n, const uint64_t *heads, size_t keys, uint64_t mark, const uint64_t *counts, const uint8_t *desks, size_t d, uint64_t key, uint64_t *out, size_t room, uint64_t *length, uint64_t *pages, uint64_t *padded);
uint32_t ouriscado_book_read(const uint8_t *body, size_t n, const uint64_t *heads, size_t keys, uint64_t mark, const uint64_t *counts, const uint8_t *desks, size_t d, uint64_t key, uint64_t *out, size_t room, uint64_t *length, uint64_t *pages, uint64_t *padded) {
    uint64_t before = *padded;
    uint32_t number = real_ouriscado_book_read(body, n, heads, keys, mark, counts, desks, d, key, out, room, length, pages, padded);
    if (number == 34) *padded = before;
    return number;
}

#elif SABOTAGE == 46
/* 46 book: a read passes a list of more desks than keys */
uint32_t real_ouriscado_book_read(const uint8_t *body, size_t n, const uint64_t *heads, size_t keys, uint64_t mark, const uint64_t *counts, const uint8_t *desks, size_t d, uint64_t key, uint64_t *out, size_t room, uint64_t *length, uint64_t *pages, uint64_t *padded);
uint32_t ouriscado_book_read(const uint8_t *body, size_t n, const uint64_t *heads, size_t keys, uint64_t mark, const uint64_t *counts, const uint8_t *desks, size_t d, uint64_t key, uint64_t *out, size_t room, uint64_t *length, uint64_t *pages, uint64_t *padded) {
    return real_ouriscado_book_read(body, n, heads, keys, mark, counts, desks, d > keys ? keys : d, key, out, room, length, pages, padded);
}

#elif SABOTAGE == 47
/* 47 book: an append passes a desk above 15 of another key */
uint32_t real_ouriscado_book_append(uint8_t *body, size_t n, uint64_t *heads, size_t keys, uint64_t *mark, uint64_t *free, uint64_t *counts, const uint8_t *desks, size_t d, uint64_t key, uint64_t fk, uint8_t *kind, uint8_t *class, uint16_t *used, uint64_t *place, uint64_t *rewritten);
uint32_t ouriscado_book_append(uint8_t *body, size_t n, uint64_t *heads, size_t keys, uint64_t *mark, uint64_t *free, uint64_t *counts, const uint8_t *desks, size_t d, uint64_t key, uint64_t fk, uint8_t *kind, uint8_t *class, uint16_t *used, uint64_t *place, uint64_t *rewritten) {
    uint8_t few[64];
    if (d != keys || d > 64 || key >= keys) return real_ouriscado_book_append(body, n, heads, keys, mark, free, counts, desks, d, key, fk, kind, class, used, place, rewritten);
    for (size_t i = 0; i < d; i++) few[i] = i == key ? desks[i] : desks[i] & 15;
    return real_ouriscado_book_append(body, n, heads, keys, mark, free, counts, few, d, key, fk, kind, class, used, place, rewritten);
}

#elif SABOTAGE == 48
/* 48 book: an append takes the desk as a number of 8 bits */
uint32_t real_ouriscado_core_append(uint8_t *body, size_t n, uint64_t *heads, size_t keys, uint64_t *mark, uint64_t *free, uint64_t *counts, uint64_t desk, uint64_t key, uint64_t fk, uint8_t *kind, uint8_t *class, uint16_t *used, uint64_t *place, uint64_t *rewritten);
uint32_t ouriscado_core_append(uint8_t *body, size_t n, uint64_t *heads, size_t keys, uint64_t *mark, uint64_t *free, uint64_t *counts, uint64_t desk, uint64_t key, uint64_t fk, uint8_t *kind, uint8_t *class, uint16_t *used, uint64_t *place, uint64_t *rewritten) {
    return real_ouriscado_core_append(body, n, heads, keys, mark, free, counts, desk & 255, key, fk, kind, class, used, place, rewritten);
}

#elif SABOTAGE == 49
/* 49 book: a drop of the core leaves the freed count */
uint32_t real_ouriscado_core_drop(uint8_t *body, size_t n, uint64_t *heads, size_t keys, uint64_t *mark, uint64_t *free, uint64_t *counts, uint64_t desk, uint64_t key, uint64_t *length);
uint32_t ouriscado_core_drop(uint8_t *body, size_t n, uint64_t *heads, size_t keys, uint64_t *mark, uint64_t *free, uint64_t *counts, uint64_t desk, uint64_t key, uint64_t *length) {
    uint64_t before = counts[0];
    uint32_t number = real_ouriscado_core_drop(body, n, heads, keys, mark, free, counts, desk, key, length);
    counts[0] = before;
    return number;
}

#elif SABOTAGE == 50
/* 50 book: a drop leaves the desk's pages */
uint32_t real_ouriscado_book_drop(uint8_t *body, size_t n, uint64_t *heads, size_t keys, uint64_t *mark, uint64_t *free, uint64_t *counts, const uint8_t *desks, size_t d, uint64_t key, uint64_t *length);
uint32_t ouriscado_book_drop(uint8_t *body, size_t n, uint64_t *heads, size_t keys, uint64_t *mark, uint64_t *free, uint64_t *counts, const uint8_t *desks, size_t d, uint64_t key, uint64_t *length) {
    uint64_t before[16];
    memcpy(before, counts + 1, sizeof before);
    uint32_t number = real_ouriscado_book_drop(body, n, heads, keys, mark, free, counts, desks, d, key, length);
    memcpy(counts + 1, before, sizeof before);
    return number;
}

#elif SABOTAGE == 51
/* 51 book: an append past the ceiling is accepted */
uint32_t real_ouriscado_book_append(uint8_t *body, size_t n, uint64_t *heads, size_t keys, uint64_t *mark, uint64_t *free, uint64_t *counts, const uint8_t *desks, size_t d, uint64_t key, uint64_t fk, uint8_t *kind, uint8_t *class, uint16_t *used, uint64_t *place, uint64_t *rewritten);
uint32_t ouriscado_book_append(uint8_t *body, size_t n, uint64_t *heads, size_t keys, uint64_t *mark, uint64_t *free, uint64_t *counts, const uint8_t *desks, size_t d, uint64_t key, uint64_t fk, uint8_t *kind, uint8_t *class, uint16_t *used, uint64_t *place, uint64_t *rewritten) {
    uint64_t before[16];
    memcpy(before, counts + 33, sizeof before);
    memset(counts + 33, 0xff, sizeof before);
    uint32_t number = real_ouriscado_book_append(body, n, heads, keys, mark, free, counts, desks, d, key, fk, kind, class, used, place, rewritten);
    memcpy(counts + 33, before, sizeof before);
    return number;
}

#elif SABOTAGE == 52
/* 52 book: an append into reserves is accepted */
uint32_t real_ouriscado_core_append(uint8_t *body, size_t n, uint64_t *heads, size_t keys, uint64_t *mark, uint64_t *free, uint64_t *counts, uint64_t desk, uint64_t key, uint64_t fk, uint8_t *kind, uint8_t *class, uint16_t *used, uint64_t *place, uint64_t *rewritten);
uint32_t ouriscado_core_append(uint8_t *body, size_t n, uint64_t *heads, size_t keys, uint64_t *mark, uint64_t *free, uint64_t *counts, uint64_t desk, uint64_t key, uint64_t fk, uint8_t *kind, uint8_t *class, uint16_t *used, uint64_t *place, uint64_t *rewritten) {
    uint64_t before[16];
    for (int i = 0; i < 16; i++)
        if (counts[17 + i] > n / 4096) return real_ouriscado_core_append(body, n, heads, keys, mark, free, counts, desk, key, fk, kind, class, used, place, rewritten);
    memcpy(before, counts + 17, sizeof before);
    memset(counts + 17, 0, sizeof before);
    uint32_t number = real_ouriscado_core_append(body, n, heads, keys, mark, free, counts, desk, key, fk, kind, class, used, place, rewritten);
    memcpy(counts + 17, before, sizeof before);
    return number;
}

#elif SABOTAGE == 53
/* 53 book: a freed page is popped where none is counted */
uint32_t real_ouriscado_book_append(uint8_t *body, size_t n, uint64_t *heads, size_t keys, uint64_t *mark, uint64_t *free, uint64_t *counts, const uint8_t *desks, size_t d, uint64_t key, uint64_t fk, uint8_t *kind, uint8_t *class, uint16_t *used, uint64_t *place, uint64_t *rewritten);
uint32_t ouriscado_book_append(uint8_t *body, size_t n, uint64_t *heads, size_t keys, uint64_t *mark, uint64_t *free, uint64_t *counts, const uint8_t *desks, size_t d, uint64_t key, uint64_t fk, uint8_t *kind, uint8_t *class, uint16_t *used, uint64_t *place, uint64_t *rewritten) {
    bool alone = free[8] != 0 && counts[0] == 0;
    counts[0] += alone;
    uint32_t number = real_ouriscado_book_append(body, n, heads, keys, mark, free, counts, desks, d, key, fk, kind, class, used, place, rewritten);
    if (alone && counts[0] == 1) counts[0] = 0;
    return number;
}

#elif SABOTAGE == 54
/* 54 book: an append of the core judges the counts first */
uint32_t real_ouriscado_core_append(uint8_t *body, size_t n, uint64_t *heads, size_t keys, uint64_t *mark, uint64_t *free, uint64_t *counts, uint64_t desk, uint64_t key, uint64_t fk, uint8_t *kind, uint8_t *class, uint16_t *used, uint64_t *place, uint64_t *rewritten);
uint32_t ouriscado_core_append(uint8_t *body, size_t n, uint64_t *heads, size_t keys, uint64_t *mark, uint64_t *free, uint64_t *counts, uint64_t desk, uint64_t key, uint64_t fk, uint8_t *kind, uint8_t *class, uint16_t *used, uint64_t *place, uint64_t *rewritten) {
    if (n < 8192 || n % 4096 != 0 || *mark % 16 != 0 || *mark < 4096 || *mark > n || counts[0] <= n / 4096) return real_ouriscado_core_append(body, n, heads, keys, mark, free, counts, desk, key, fk, kind, class, used, place, rewritten);
    *kind = *class = 0, *used = 0, *place = *rewritten = 0;
    return 1;
}

#elif SABOTAGE == 55
/* 55 book: a making passes a reserve above its ceiling */
uint32_t real_ouriscado_book_fresh(const uint8_t *body, size_t n, uint64_t *heads, size_t keys, uint64_t *mark, uint64_t *free, uint64_t *counts, const uint8_t *desks, size_t d, const uint64_t *reserve, const uint64_t *ceiling);
uint32_t ouriscado_book_fresh(const uint8_t *body, size_t n, uint64_t *heads, size_t keys, uint64_t *mark, uint64_t *free, uint64_t *counts, const uint8_t *desks, size_t d, const uint64_t *reserve, const uint64_t *ceiling) {
    uint64_t larger[16];
    for (int i = 0; i < 16; i++) larger[i] = ceiling[i] < reserve[i] ? reserve[i] : ceiling[i];
    uint32_t number = real_ouriscado_book_fresh(body, n, heads, keys, mark, free, counts, desks, d, reserve, larger);
    if (number == 0) memcpy(counts + 33, ceiling, sizeof larger);
    return number;
}

#elif SABOTAGE == 56
/* 56 book: a check passes lacks that aren't covered */
uint32_t real_ouriscado_book_check(const uint8_t *body, size_t n, const uint64_t *heads, size_t keys, uint64_t mark, const uint64_t *free, const uint64_t *counts, const uint8_t *desks, size_t d, uint8_t *work, size_t room, uint32_t *ground, uint64_t *which, uint64_t *lost);
uint32_t ouriscado_book_check(const uint8_t *body, size_t n, const uint64_t *heads, size_t keys, uint64_t mark, const uint64_t *free, const uint64_t *counts, const uint8_t *desks, size_t d, uint8_t *work, size_t room, uint32_t *ground, uint64_t *which, uint64_t *lost) {
    uint32_t number = real_ouriscado_book_check(body, n, heads, keys, mark, free, counts, desks, d, work, room, ground, which, lost);
    if (*ground == 10) *ground = 0;
    return number;
}

#elif SABOTAGE == 57
/* 57 book: a check tells the key in place of the desk */
uint32_t real_ouriscado_book_check(const uint8_t *body, size_t n, const uint64_t *heads, size_t keys, uint64_t mark, const uint64_t *free, const uint64_t *counts, const uint8_t *desks, size_t d, uint8_t *work, size_t room, uint32_t *ground, uint64_t *which, uint64_t *lost);
uint32_t ouriscado_book_check(const uint8_t *body, size_t n, const uint64_t *heads, size_t keys, uint64_t mark, const uint64_t *free, const uint64_t *counts, const uint8_t *desks, size_t d, uint8_t *work, size_t room, uint32_t *ground, uint64_t *which, uint64_t *lost) {
    uint32_t number = real_ouriscado_book_check(body, n, heads, keys, mark, free, counts, desks, d, work, room, ground, which, lost);
    if (*ground > 6 && *ground < 10)
        for (uint64_t key = keys; key-- > 0;)
            if (desks[key] == *which) *which = key;
    return number;
}

#elif SABOTAGE == 58
/* 58 book: a run takes the stretch of freed pages that fits best */
uint32_t real_ouriscado_book_load(uint8_t *body, size_t n, uint64_t *heads, size_t keys, uint64_t *mark, uint64_t *free, uint64_t *counts, const uint8_t *desks, size_t d, uint64_t key, const uint64_t *fks, size_t len, uint64_t *pages);
uint32_t ouriscado_book_load(uint8_t *body, size_t n, uint64_t *heads, size_t keys, uint64_t *mark, uint64_t *free, uint64_t *counts, const uint8_t *desks, size_t d, uint64_t key, const uint64_t *fks, size_t len, uint64_t *pages) {
    static struct freed f;
    uint64_t was = counts[0];
    freed_before(&f, body, n, *mark, free[8]);
    uint32_t number = real_ouriscado_book_load(body, n, heads, keys, mark, free, counts, desks, d, key, fks, len, pages);
    bool out = number == 0 && *pages > 0 && counts[0] < was;
    uint64_t best = 0, least = UINT64_MAX;
    for (uint64_t i = 0; out && i < f.count; i += stretch_at(&f, i)) {
        uint64_t long_ = stretch_at(&f, i);
        if (long_ >= *pages && long_ < least) best = f.sorted[i], least = long_;
    }
    if (out) run_at(&heads[key], best, *pages);
    return number;
}

#elif SABOTAGE == 59
/* 59 book: a run takes the highest freed pages */
uint32_t real_ouriscado_core_load_tight(uint8_t *body, size_t n, uint64_t *heads, size_t keys, uint64_t *mark, uint64_t *free, uint64_t *counts, uint64_t desk, uint64_t key, const uint64_t *fks, size_t len, uint64_t *pages);
uint32_t ouriscado_core_load_tight(uint8_t *body, size_t n, uint64_t *heads, size_t keys, uint64_t *mark, uint64_t *free, uint64_t *counts, uint64_t desk, uint64_t key, const uint64_t *fks, size_t len, uint64_t *pages) {
    static struct freed f;
    uint64_t was = counts[0];
    freed_before(&f, body, n, *mark, free[8]);
    uint32_t number = real_ouriscado_core_load_tight(body, n, heads, keys, mark, free, counts, desk, key, fks, len, pages);
    bool out = number == 0 && *pages > 0 && counts[0] < was;
    uint64_t high = 0;
    for (uint64_t i = 0; out && i < f.count; i++)
        if (stretch_at(&f, i) >= *pages) high = f.sorted[i];
    if (out) run_at(&heads[key], high, *pages);
    return number;
}

#elif SABOTAGE == 60
/* 60 book: a run of one page is popped */
uint32_t real_ouriscado_core_load(uint8_t *body, size_t n, uint64_t *heads, size_t keys, uint64_t *mark, uint64_t *free, uint64_t *counts, uint64_t desk, uint64_t key, const uint64_t *fks, size_t len, uint64_t *pages);
uint32_t ouriscado_core_load(uint8_t *body, size_t n, uint64_t *heads, size_t keys, uint64_t *mark, uint64_t *free, uint64_t *counts, uint64_t desk, uint64_t key, const uint64_t *fks, size_t len, uint64_t *pages) {
    static struct freed f;
    uint64_t was = counts[0];
    freed_before(&f, body, n, *mark, free[8]);
    uint32_t number = real_ouriscado_core_load(body, n, heads, keys, mark, free, counts, desk, key, fks, len, pages);
    bool out = number == 0 && *pages > 0 && counts[0] < was;
    if (out && *pages == 1) run_at(&heads[key], f.pages[0], 1);
    return number;
}

#elif SABOTAGE == 61
/* 61 book: the freed pages that are left are turned round */
uint32_t real_ouriscado_book_load_tight(uint8_t *body, size_t n, uint64_t *heads, size_t keys, uint64_t *mark, uint64_t *free, uint64_t *counts, const uint8_t *desks, size_t d, uint64_t key, const uint64_t *fks, size_t len, uint64_t *pages);
uint32_t ouriscado_book_load_tight(uint8_t *body, size_t n, uint64_t *heads, size_t keys, uint64_t *mark, uint64_t *free, uint64_t *counts, const uint8_t *desks, size_t d, uint64_t key, const uint64_t *fks, size_t len, uint64_t *pages) {
    static struct freed f;
    uint64_t was = counts[0];
    freed_before(&f, body, n, *mark, free[8]);
    uint32_t number = real_ouriscado_book_load_tight(body, n, heads, keys, mark, free, counts, desks, d, key, fks, len, pages);
    bool out = number == 0 && *pages > 0 && counts[0] < was;
    uint64_t last = out ? heads[key] & ~(UINT64_C(3) << 62) : 0, top = 0;
    for (uint64_t i = 0; out && i < f.count; i++)
        if (f.pages[i] > last || f.pages[i] + *pages * 4096 <= last) set_link(body, f.pages[i], top), top = f.pages[i];
    if (out) free[8] = top;
    return number;
}

#elif SABOTAGE == 62
/* 62 book: a run that freed pages serve with one past the mark isn't refused */
uint32_t real_ouriscado_book_load(uint8_t *body, size_t n, uint64_t *heads, size_t keys, uint64_t *mark, uint64_t *free, uint64_t *counts, const uint8_t *desks, size_t d, uint64_t key, const uint64_t *fks, size_t len, uint64_t *pages);
uint32_t ouriscado_book_load(uint8_t *body, size_t n, uint64_t *heads, size_t keys, uint64_t *mark, uint64_t *free, uint64_t *counts, const uint8_t *desks, size_t d, uint64_t key, const uint64_t *fks, size_t len, uint64_t *pages) {
    static struct freed f;
    freed_before(&f, body, n, *mark, free[8]);
    uint32_t number = real_ouriscado_book_load(body, n, heads, keys, mark, free, counts, desks, d, key, fks, len, pages);
    bool adjoins = f.count > 0 && f.sorted[f.count - 1] + 4096 == *mark;
    if (number == 36 && adjoins && len > 256 && *mark + 4096 <= n) number = 0;
    return number;
}

#elif SABOTAGE == 63
/* 63 book: the mark is rounded though freed pages serve */
uint32_t real_ouriscado_core_load(uint8_t *body, size_t n, uint64_t *heads, size_t keys, uint64_t *mark, uint64_t *free, uint64_t *counts, uint64_t desk, uint64_t key, const uint64_t *fks, size_t len, uint64_t *pages);
uint32_t ouriscado_core_load(uint8_t *body, size_t n, uint64_t *heads, size_t keys, uint64_t *mark, uint64_t *free, uint64_t *counts, uint64_t desk, uint64_t key, const uint64_t *fks, size_t len, uint64_t *pages) {
    static struct freed f;
    uint64_t was = counts[0];
    freed_before(&f, body, n, *mark, free[8]);
    uint32_t number = real_ouriscado_core_load(body, n, heads, keys, mark, free, counts, desk, key, fks, len, pages);
    bool out = number == 0 && *pages > 0 && counts[0] < was;
    if (out) *mark = (*mark + 4095) / 4096 * 4096;
    return number;
}

#elif SABOTAGE == 64
/* 64 book: 36 comes before a list of freed pages that can't be searched */
uint32_t real_ouriscado_core_load_tight(uint8_t *body, size_t n, uint64_t *heads, size_t keys, uint64_t *mark, uint64_t *free, uint64_t *counts, uint64_t desk, uint64_t key, const uint64_t *fks, size_t len, uint64_t *pages);
uint32_t ouriscado_core_load_tight(uint8_t *body, size_t n, uint64_t *heads, size_t keys, uint64_t *mark, uint64_t *free, uint64_t *counts, uint64_t desk, uint64_t key, const uint64_t *fks, size_t len, uint64_t *pages) {
    uint32_t number = real_ouriscado_core_load_tight(body, n, heads, keys, mark, free, counts, desk, key, fks, len, pages);
    if (number == 42 && (*mark + 4095) / 4096 * 4096 == n) number = 36;
    return number;
}

#elif SABOTAGE == 65
/* 65 book: a run out of freed pages leaves their count */
uint32_t real_ouriscado_book_load_tight(uint8_t *body, size_t n, uint64_t *heads, size_t keys, uint64_t *mark, uint64_t *free, uint64_t *counts, const uint8_t *desks, size_t d, uint64_t key, const uint64_t *fks, size_t len, uint64_t *pages);
uint32_t ouriscado_book_load_tight(uint8_t *body, size_t n, uint64_t *heads, size_t keys, uint64_t *mark, uint64_t *free, uint64_t *counts, const uint8_t *desks, size_t d, uint64_t key, const uint64_t *fks, size_t len, uint64_t *pages) {
    static struct freed f;
    uint64_t was = counts[0];
    freed_before(&f, body, n, *mark, free[8]);
    uint32_t number = real_ouriscado_book_load_tight(body, n, heads, keys, mark, free, counts, desks, d, key, fks, len, pages);
    bool out = number == 0 && *pages > 0 && counts[0] < was;
    if (out) counts[0] = was;
    return number;
}

#elif SABOTAGE == 66
/* 66 book: a list that can't be searched is passed over where the mark has room */
uint32_t real_ouriscado_book_load(uint8_t *body, size_t n, uint64_t *heads, size_t keys, uint64_t *mark, uint64_t *free, uint64_t *counts, const uint8_t *desks, size_t d, uint64_t key, const uint64_t *fks, size_t len, uint64_t *pages);
uint32_t ouriscado_book_load(uint8_t *body, size_t n, uint64_t *heads, size_t keys, uint64_t *mark, uint64_t *free, uint64_t *counts, const uint8_t *desks, size_t d, uint64_t key, const uint64_t *fks, size_t len, uint64_t *pages) {
    uint32_t number = real_ouriscado_book_load(body, n, heads, keys, mark, free, counts, desks, d, key, fks, len, pages);
    uint64_t head = free[8], was = counts[0];
    if (number != 42) return number;
    free[8] = 0, counts[0] = 0;
    number = real_ouriscado_book_load(body, n, heads, keys, mark, free, counts, desks, d, key, fks, len, pages);
    free[8] = head, counts[0] = was;
    if (number != 0) number = 42;
    return number;
}

#elif SABOTAGE == 67
/* 67 book: a tight load goes to the mark though freed pages serve */
uint32_t real_ouriscado_core_load_tight(uint8_t *body, size_t n, uint64_t *heads, size_t keys, uint64_t *mark, uint64_t *free, uint64_t *counts, uint64_t desk, uint64_t key, const uint64_t *fks, size_t len, uint64_t *pages);
uint32_t ouriscado_core_load_tight(uint8_t *body, size_t n, uint64_t *heads, size_t keys, uint64_t *mark, uint64_t *free, uint64_t *counts, uint64_t desk, uint64_t key, const uint64_t *fks, size_t len, uint64_t *pages) {
    uint64_t head = free[8], was = counts[0];
    uint32_t number = 42;
    if (head == 0 || len < 257 || was == 0 || was > n / 4096) return real_ouriscado_core_load_tight(body, n, heads, keys, mark, free, counts, desk, key, fks, len, pages);
    free[8] = 0, counts[0] = 0;
    number = real_ouriscado_core_load_tight(body, n, heads, keys, mark, free, counts, desk, key, fks, len, pages);
    free[8] = head, counts[0] = was;
    return number;
}

#elif SABOTAGE == 68
/* 68 book: a run that 40 turns back has left the list */
uint32_t real_ouriscado_core_load(uint8_t *body, size_t n, uint64_t *heads, size_t keys, uint64_t *mark, uint64_t *free, uint64_t *counts, uint64_t desk, uint64_t key, const uint64_t *fks, size_t len, uint64_t *pages);
uint32_t ouriscado_core_load(uint8_t *body, size_t n, uint64_t *heads, size_t keys, uint64_t *mark, uint64_t *free, uint64_t *counts, uint64_t desk, uint64_t key, const uint64_t *fks, size_t len, uint64_t *pages) {
    static struct freed f;
    freed_before(&f, body, n, *mark, free[8]);
    uint32_t number = real_ouriscado_core_load(body, n, heads, keys, mark, free, counts, desk, key, fks, len, pages);
    if (number == 40 && f.count > 0) free[8] = link_of(body, free[8]);
    return number;
}

#elif SABOTAGE == 69
/* 69 book: a page across the mark is searched */
uint32_t real_ouriscado_book_load(uint8_t *body, size_t n, uint64_t *heads, size_t keys, uint64_t *mark, uint64_t *free, uint64_t *counts, const uint8_t *desks, size_t d, uint64_t key, const uint64_t *fks, size_t len, uint64_t *pages);
uint32_t ouriscado_book_load(uint8_t *body, size_t n, uint64_t *heads, size_t keys, uint64_t *mark, uint64_t *free, uint64_t *counts, const uint8_t *desks, size_t d, uint64_t key, const uint64_t *fks, size_t len, uint64_t *pages) {
    uint64_t before = *mark, up = (before + 4095) / 4096 * 4096;
    uint32_t number = real_ouriscado_book_load(body, n, heads, keys, mark, free, counts, desks, d, key, fks, len, pages);
    if (number != 42 || up == before || up > n) return number;
    *mark = up;
    number = real_ouriscado_book_load(body, n, heads, keys, mark, free, counts, desks, d, key, fks, len, pages);
    if (number != 0) *mark = before, number = 42;
    return number;
}

#elif SABOTAGE == 70
/* 70 book: the length of a slab is its head's, though the slab isn't sound */
uint32_t real_ouriscado_core_length(const uint8_t *body, size_t n, const uint64_t *heads, size_t keys, uint64_t mark, uint64_t key, uint64_t *length);
uint32_t ouriscado_core_length(const uint8_t *body, size_t n, const uint64_t *heads, size_t keys, uint64_t mark, uint64_t key, uint64_t *length) {
    uint32_t number = real_ouriscado_core_length(body, n, heads, keys, mark, key, length);
    if (number == 31 && heads[key] >> 62 == 1) *length = heads[key] >> 40 & 0xffff, number = 0;
    return number;
}

#elif SABOTAGE == 71
/* 71 book: the length of pages is the last page's creates */
uint32_t real_ouriscado_book_length(const uint8_t *body, size_t n, const uint64_t *heads, size_t keys, uint64_t mark, const uint64_t *counts, const uint8_t *desks, size_t d, uint64_t key, uint64_t *length);
uint32_t ouriscado_book_length(const uint8_t *body, size_t n, const uint64_t *heads, size_t keys, uint64_t mark, const uint64_t *counts, const uint8_t *desks, size_t d, uint64_t key, uint64_t *length) {
    uint32_t number = real_ouriscado_book_length(body, n, heads, keys, mark, counts, desks, d, key, length);
    uint32_t creates;
    if (number != 0 || heads[key] >> 62 != 3) return number;
    memcpy(&creates, body + (heads[key] & ~(UINT64_C(3) << 62)) + 20, 4);
    *length = creates;
    return number;
}

#elif SABOTAGE == 72
/* 72 book: an extend in pages counts one number in creates, however many there are */
uint32_t real_ouriscado_core_extend(uint8_t *body, size_t n, uint64_t *heads, size_t keys, uint64_t *mark, uint64_t *free, uint64_t *counts, uint64_t desk, uint64_t key, const uint64_t *fks, size_t count, uint64_t *accepted, uint32_t *refusal, uint8_t *kind, uint8_t *class, uint16_t *used, uint64_t *place, uint64_t *moves, uint64_t *rewritten);
uint32_t ouriscado_core_extend(uint8_t *body, size_t n, uint64_t *heads, size_t keys, uint64_t *mark, uint64_t *free, uint64_t *counts, uint64_t desk, uint64_t key, const uint64_t *fks, size_t count, uint64_t *accepted, uint32_t *refusal, uint8_t *kind, uint8_t *class, uint16_t *used, uint64_t *place, uint64_t *moves, uint64_t *rewritten) {
    uint32_t number = real_ouriscado_core_extend(body, n, heads, keys, mark, free, counts, desk, key, fks, count, accepted, refusal, kind, class, used, place, moves, rewritten);
    uint32_t creates;
    if (number != 0 || *kind != 3 || *moves != 0 || *accepted < 2) return number;
    memcpy(&creates, body + *place + 20, 4);
    if (creates > *accepted) creates -= (uint32_t)*accepted - 1;
    memcpy(body + *place + 20, &creates, 4);
    return number;
}

#elif SABOTAGE == 73
/* 73 book: an extend counts the number that was refused among those that it appended */
uint32_t real_ouriscado_book_extend(uint8_t *body, size_t n, uint64_t *heads, size_t keys, uint64_t *mark, uint64_t *free, uint64_t *counts, const uint8_t *desks, size_t d, uint64_t key, const uint64_t *fks, size_t count, uint64_t *accepted, uint32_t *refusal, uint8_t *kind, uint8_t *class, uint16_t *used, uint64_t *place, uint64_t *moves, uint64_t *rewritten);
uint32_t ouriscado_book_extend(uint8_t *body, size_t n, uint64_t *heads, size_t keys, uint64_t *mark, uint64_t *free, uint64_t *counts, const uint8_t *desks, size_t d, uint64_t key, const uint64_t *fks, size_t count, uint64_t *accepted, uint32_t *refusal, uint8_t *kind, uint8_t *class, uint16_t *used, uint64_t *place, uint64_t *moves, uint64_t *rewritten) {
    uint32_t number = real_ouriscado_book_extend(body, n, heads, keys, mark, free, counts, desks, d, key, fks, count, accepted, refusal, kind, class, used, place, moves, rewritten);
    if (*refusal != 0) *accepted += 1;
    return number;
}

#elif SABOTAGE == 74
/* 74 book: an extend leaves the last number out, and tells that all were appended */
uint32_t real_ouriscado_core_extend(uint8_t *body, size_t n, uint64_t *heads, size_t keys, uint64_t *mark, uint64_t *free, uint64_t *counts, uint64_t desk, uint64_t key, const uint64_t *fks, size_t count, uint64_t *accepted, uint32_t *refusal, uint8_t *kind, uint8_t *class, uint16_t *used, uint64_t *place, uint64_t *moves, uint64_t *rewritten);
uint32_t ouriscado_core_extend(uint8_t *body, size_t n, uint64_t *heads, size_t keys, uint64_t *mark, uint64_t *free, uint64_t *counts, uint64_t desk, uint64_t key, const uint64_t *fks, size_t count, uint64_t *accepted, uint32_t *refusal, uint8_t *kind, uint8_t *class, uint16_t *used, uint64_t *place, uint64_t *moves, uint64_t *rewritten) {
    size_t offered = count;
    if (count > 1) count -= 1;
    uint32_t number = real_ouriscado_core_extend(body, n, heads, keys, mark, free, counts, desk, key, fks, count, accepted, refusal, kind, class, used, place, moves, rewritten);
    if (number == 0 && *refusal == 0) *accepted = offered;
    return number;
}

#elif SABOTAGE == 75
/* 75 book: an extend by no number doesn't judge its key */
uint32_t real_ouriscado_book_extend(uint8_t *body, size_t n, uint64_t *heads, size_t keys, uint64_t *mark, uint64_t *free, uint64_t *counts, const uint8_t *desks, size_t d, uint64_t key, const uint64_t *fks, size_t count, uint64_t *accepted, uint32_t *refusal, uint8_t *kind, uint8_t *class, uint16_t *used, uint64_t *place, uint64_t *moves, uint64_t *rewritten);
uint32_t ouriscado_book_extend(uint8_t *body, size_t n, uint64_t *heads, size_t keys, uint64_t *mark, uint64_t *free, uint64_t *counts, const uint8_t *desks, size_t d, uint64_t key, const uint64_t *fks, size_t count, uint64_t *accepted, uint32_t *refusal, uint8_t *kind, uint8_t *class, uint16_t *used, uint64_t *place, uint64_t *moves, uint64_t *rewritten) {
    uint32_t number = real_ouriscado_book_extend(body, n, heads, keys, mark, free, counts, desks, d, key, fks, count, accepted, refusal, kind, class, used, place, moves, rewritten);
    return number == 31 && count == 0 ? 0 : number;
}

#else
#error "SABOTAGE names none"
#endif
