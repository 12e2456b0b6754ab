/* Ouriscado 0.1.0: the ported functions, for those who work on bytes or compare with the published source.
   Made by host/bindings.py from the exports and host/boundary: change those, and make it again.

   Whoever keeps accounts needs ouriscado.h alone. The functions here work on single head words, slabs, pages
   and free lists, and know nothing of a book: used on parts of a book's body they can damage it. Those marked
   WARNING can make a page read as empty, spoil its numbers, or leave a number unrecorded, although the call
   is accepted.

   As in ouriscado.h, a slice is a pointer and then its length in elements; no pointer is kept; what two
   parameters of a call point to must not overlap; a pointer is null only for a slice of length 0; there are
   no global variables. Where the comment names refusals, the result is 0 or the number of one, and after a
   refusal every buffer holds what it held and every number that goes out is 0, every bool false.

   STACK: functions that read out more than 256 numbers of a stream, a slab or a page need at most
   OURISCADO_STACK_LONG bytes; all others OURISCADO_STACK_BOOK. */
#ifndef OURISCADO_CODEC_H
#define OURISCADO_CODEC_H
#include <stdbool.h>
#include "ouriscado.h"
#ifdef __cplusplus
extern "C" {
#endif

/* Refusals that only functions of this header give. Here OURISCADO_TOO_MANY_OFFERED,
   OURISCADO_OFFERED_FIRST_ZERO, OURISCADO_OFFERED_BIT_63, OURISCADO_OFFERED_NOT_RISING,
   OURISCADO_LIST_TOO_SHORT and OURISCADO_FREE_HEAD_BAD of ouriscado.h are met too. */
enum ouriscado_codec_refusal {
    /* A page buffer isn't 4,096 bytes.
       Operator: has the caller corrected. */
    OURISCADO_PAGE_LENGTH = 4,
    /* A link offset isn't a multiple of 4,096.
       Operator: has the caller corrected. */
    OURISCADO_LINK_UNALIGNED = 5,
    /* A link index is 2^39 or more: the offset is 2^51 or more.
       Operator: has the caller corrected. */
    OURISCADO_LINK_TOO_LARGE = 6,
    /* The first offset is asked of a page without LAST.
       Operator: asks the last page; if it was that, the page is damaged. */
    OURISCADO_NOT_LAST = 7,
    /* An extent count is 0: the extent has no page.
       Operator: has the caller corrected; if it was stored, the page is damaged. */
    OURISCADO_EXTENT_COUNT_ZERO = 8,
    /* An extent base is 0 or unaligned to 4,096.
       Operator: has the caller corrected; if it was stored, the page is damaged. */
    OURISCADO_EXTENT_BASE_BAD = 9,
    /* A slab buffer is under 2 bytes.
       Operator: has the caller corrected. */
    OURISCADO_SLAB_TOO_SHORT = 11,
    /* A page's count exceeds its capacity, the bytes for its stream.
       Operator: the page is damaged: restores it. */
    OURISCADO_COUNT_ABOVE_CAPACITY = 15,
    /* A page's version is above 2, or 0 with a count.
       Operator: the page is damaged: restores it. */
    OURISCADO_VERSION_BAD = 16,
    /* The bytes end before a ULEB128 form does.
       Operator: the bytes are damaged, or fewer were given than there are. */
    OURISCADO_ULEB_CUT_SHORT = 17,
    /* A ULEB128 form overflows 64 bits, or has more than ten bytes.
       Operator: the bytes are damaged. */
    OURISCADO_ULEB_OVERFLOW = 18,
    /* 19: retired: a page's stream never passes its capacity, since 17 or 18 comes first; no refusal takes
       this number. */
    /* A stored first number is 0.
       Operator: the bytes are damaged. */
    OURISCADO_STORED_FIRST_ZERO = 20,
    /* A stored difference is 0: a number equals the one before it.
       Operator: the bytes are damaged. */
    OURISCADO_STORED_DIFFERENCE_ZERO = 21,
    /* A stored sum passes 2^64 - 1.
       Operator: the bytes are damaged. */
    OURISCADO_STORED_SUM_OVERFLOW = 22,
    /* A stored number has bit 63 set: it is 2^63 or more.
       Operator: the bytes are damaged. */
    OURISCADO_STORED_BIT_63 = 23,
    /* An inline head has used other than 1.
       Operator: has the caller corrected. */
    OURISCADO_INLINE_USED_NOT_ONE = 24,
    /* An inline head exceeds 2^62 - 1.
       Operator: has the caller corrected. */
    OURISCADO_INLINE_TOO_LARGE = 25,
    /* A slab head has offset above 2^40 - 1 or class above 63.
       Operator: has the caller corrected. */
    OURISCADO_SLAB_FIELD_TOO_LARGE = 26,
    /* An extent head is 0 or above 2^62 - 1; it is a last page's offset.
       Operator: has the caller corrected. */
    OURISCADO_EXTENT_OUT_OF_RANGE = 27,
    /* A stored slab head has used 0 or 1.
       Operator: the word is damaged. */
    OURISCADO_SLAB_USED_TOO_SMALL = 28,
    /* A head word has mode 2.
       Operator: the word is damaged. */
    OURISCADO_MODE_TWO = 29,
    /* A head word of mode 3 has offset 0.
       Operator: the word is damaged. */
    OURISCADO_EXTENT_PAYLOAD_ZERO = 30,
    /* What is to be written doesn't fit its destination.
       Operator: has a larger buffer lent, or fewer numbers offered. */
    OURISCADO_DOES_NOT_FIT = 33,
};

/* ---- ULEB128 ----
   A form of a number: groups of seven bits, the lowest first, one to a byte, with bit 7 set in every byte but
   the last. The shortest form is written; longer ones, whose last groups are 0, are read too. A number in such
   a longer form is padded: it isn't wrong, only longer than needed, and other software wrote it. */

/* The length of the shortest form of n, in bytes. */
size_t ouriscado_uleb128_len(uint64_t n);

/* Reads the number at the start of buf: its value, the length of its form, and whether that is the shortest
   form of the value. Refuses 17, 18. */
uint32_t ouriscado_read_uleb128(
    const uint8_t *buf, size_t buf_len, uint64_t *value, size_t *len, bool *shortest);

/* Writes the shortest form of n to the start of dst, and tells its length. Refuses 33. */
uint32_t ouriscado_write_uleb128_into(uint8_t *dst, size_t dst_len, uint64_t n, size_t *len);

/* ---- Streams ----
   An Fk is a record number. A rising list of Fks is stored as a stream: the first number, then the difference
   of each to the one before it, each as a ULEB128 form. A stream doesn't say how many numbers it has. */

/* Writes the stream of a rising list to the start of out, and tells its length. Refuses 12, 13, 32, 33. */
uint32_t ouriscado_encode_fk_delta_stream_into(
    uint8_t *out, size_t out_len, const uint64_t *fks, size_t fks_len, size_t *len);

/* Reads a stream of n numbers at the start of buf into the start of out, and tells how many bytes it takes
   and how many of the numbers are padded: stored in a longer form than the shortest. Refuses 17, 18, 20 to
   23, 34. */
uint32_t ouriscado_decode_fk_delta_stream_into(
    const uint8_t *buf, size_t buf_len, size_t n, uint64_t *out, size_t out_len, size_t *taken,
    size_t *padded);

/* ---- Slabs ----
   A slab is a block for a short list: 2 bytes with the count of numbers, then the stream; both are its
   payload. Its class, 0 to 7, says its size: class c has 16 * 2^c bytes and is meant for up to 4 * 2^c
   numbers, its slots. Class 8 is a page. Where a function hands out a class, its result, a bool, says whether
   there is one; where there is none, class_ becomes 0, which is no class then. */

/* Writes the payload of a rising list to the start of out, and tells its length. Refuses 10 to 13, 32, 33. */
uint32_t ouriscado_encode_slab_payload_into(
    uint8_t *out, size_t out_len, const uint64_t *fks, size_t fks_len, size_t *len);

/* Reads the payload at the start of buf into the start of out, and tells how many numbers it has, how many
   bytes it takes and how many of the numbers are padded. Refuses 11, 17, 18, 20 to 23, 34. */
uint32_t ouriscado_decode_slab_payload_into(
    const uint8_t *buf, size_t buf_len, uint64_t *out, size_t out_len, size_t *used, size_t *len,
    size_t *padded);

/* How many numbers a slab of a class has slots for, or 0 where that passes 32 bits. */
uint32_t ouriscado_slab_cap(uint8_t class_);

/* How many bytes a block of a class has, or 0 where that passes 64 bits. */
uint64_t ouriscado_slab_bytes(uint8_t class_);

/* The smallest class whose slots hold n numbers: none for 0, 1 or from 257 on. */
bool ouriscado_slab_class_for_n_fks(uint32_t n, uint8_t *class_);

/* The class for one number more than n, or where there is none the class for n. */
bool ouriscado_slab_class_for_n_fks_with_slack(uint32_t n, uint8_t *class_);

/* The smallest class whose bytes hold len bytes: none for 0 or above 2,048. */
bool ouriscado_slab_class_for_packed_len(size_t len, uint8_t *class_);

/* ---- Head words ----
   A head word says where a key's list stands: nowhere, inline (the word is the one number), in a slab (class,
   used, which is how many numbers it has, and offset), or in pages (the offset of the last one). As four
   numbers: the kind is one of OURISCADO_KIND_EMPTY to OURISCADO_KIND_PAGES, the place is the number or the
   offset. */

/* The word of no number. */
uint32_t ouriscado_pack8_empty(uint64_t *word);

/* The word of an inline number. Refuses 24, 25. */
uint32_t ouriscado_pack8_inline(uint64_t entry, uint8_t used, uint64_t *word);

/* The word of a slab. Refuses 26. */
uint32_t ouriscado_pack8_slab(uint8_t class_, uint16_t used, uint64_t off, uint64_t *word);

/* The word of pages, by the offset of the last. Refuses 27. */
uint32_t ouriscado_pack8_extent(uint64_t last, uint64_t *word);

/* The eight bytes that store the head of no number. */
uint32_t ouriscado_pack8_bytes_empty(uint8_t out[8]);

/* The eight bytes that store an inline number. Refuses 24, 25. */
uint32_t ouriscado_pack8_bytes_inline(uint64_t entry, uint8_t used, uint8_t out[8]);

/* The eight bytes that store a slab's head. Refuses 26. */
uint32_t ouriscado_pack8_bytes_slab(uint8_t class_, uint16_t used, uint64_t off, uint8_t out[8]);

/* The eight bytes that store the head of pages, by the offset of the last. Refuses 27. */
uint32_t ouriscado_pack8_bytes_extent(uint64_t last, uint8_t out[8]);

/* What a stored word says, as four numbers. Refuses 28 to 30. */
uint32_t ouriscado_unpack8(uint64_t w, uint8_t *kind, uint8_t *class_, uint16_t *used, uint64_t *place);

/* What eight stored bytes say, as four numbers. Refuses 28 to 30. */
uint32_t ouriscado_unpack8_bytes(
    const uint8_t buf[8], uint8_t *kind, uint8_t *class_, uint16_t *used, uint64_t *place);

/* The offset from which on lists stand in a file, whatever the length of the file's own header. */
uint64_t ouriscado_payload_start(size_t file_header_len);

/* ---- Pages: the fields of the header ----
   A page has OURISCADO_PAGE_BYTES bytes: version, count of numbers, link, and a stream. Its link is one bit,
   LAST, and a page's offset. The pages of a key are a chain: in each page but the last, the link names the
   next page; the last page has LAST, and its link names the first page of the chain. A page of version 2 also
   names an extent, which is pages side by side (the offset of the first, its base, and how many there are),
   and has creates: in a chain's last page how many numbers the whole list has, or 0 where they were never
   counted, else 0. Version 1 has no extent; version 0 is a page that was never written. */

/* Passes a page that can be read. Refuses 4, 15, 16. */
uint32_t ouriscado_sh_page_require_delta(const uint8_t *page, size_t page_len);

/* Makes a page empty: version 1, LAST with first offset 0, every other byte 0. Refuses 4.
   WARNING: the page then reads as empty, whatever it held: its numbers are lost, and an enquiry that trusts
   the page alone says that nothing was received. */
uint32_t ouriscado_sh_page_init_empty(uint8_t *page, size_t page_len);

/* How many numbers a page has. Refuses 4, 15. */
uint32_t ouriscado_sh_page_n_fks(const uint8_t *page, size_t page_len, size_t *n);

/* Writes a page's count. Refuses 4.
   WARNING: with 0 the page reads as empty although its numbers still stand in it, and with too small a count
   its last numbers are passed over; no function on single pages notices. */
uint32_t ouriscado_sh_page_set_n_fks(uint8_t *page, size_t page_len, uint16_t n);

/* What a page's link says: whether the page is LAST, and the offset of the page that it names. Refuses 4. */
uint32_t ouriscado_sh_page_read_packed(const uint8_t *page, size_t page_len, bool *last, uint64_t *off);

/* Writes a page's link: LAST or not, and the offset of the page that it names. Refuses 4 to 6. */
uint32_t ouriscado_sh_page_write_packed(uint8_t *page, size_t page_len, bool last, uint64_t off);

/* Whether a page is LAST. Refuses 4. */
uint32_t ouriscado_sh_page_is_last(const uint8_t *page, size_t page_len, bool *last);

/* Makes a page LAST, with the first page's offset. Refuses 4 to 6. */
uint32_t ouriscado_sh_page_set_last(uint8_t *page, size_t page_len, uint64_t off);

/* The first page's offset, of a page with LAST. Refuses 4, 7. */
uint32_t ouriscado_sh_page_first_off(const uint8_t *page, size_t page_len, uint64_t *off);

/* The next page's offset, 0 where the page is LAST. Refuses 4. */
uint32_t ouriscado_sh_page_next(const uint8_t *page, size_t page_len, uint64_t *off);

/* Gives a page a next page, without LAST. Refuses 4 to 6. */
uint32_t ouriscado_sh_page_set_next(uint8_t *page, size_t page_len, uint64_t off);

/* Where a page's stream starts. Refuses 4. */
uint32_t ouriscado_sh_page_stream_off(const uint8_t *page, size_t page_len, size_t *off);

/* How many bytes a page's stream may take. Refuses 4. */
uint32_t ouriscado_sh_page_stream_cap(const uint8_t *page, size_t page_len, size_t *cap);

/* The extent that a page names, its base and how many pages it has: 0 and 0 outside version 2. Refuses 4, 8,
   9. */
uint32_t ouriscado_sh_page_extent(const uint8_t *page, size_t page_len, uint64_t *base, uint32_t *n);

/* Makes a page name an extent, in version 2. Refuses 4, 8, 9.
   WARNING: on a page of version 1 this writes over the first 16 bytes of its stream; it is for pages without
   numbers. */
uint32_t ouriscado_sh_page_set_extent(uint8_t *page, size_t page_len, uint64_t base, uint32_t n);

/* A page's creates, 0 outside version 2. Refuses 4. */
uint32_t ouriscado_sh_page_extent_creates(const uint8_t *page, size_t page_len, uint32_t *n);

/* Writes a page's creates, in version 2 only. Refuses 4. */
uint32_t ouriscado_sh_page_set_extent_creates(uint8_t *page, size_t page_len, uint32_t n);

/* ---- Pages: the numbers ---- */

/* How many bytes a page's stream takes, and its last number, 0 where it has none. Refuses 4, 15 to 18, 20 to
   23. */
uint32_t ouriscado_sh_page_stream_tail(const uint8_t *page, size_t page_len, size_t *taken, uint64_t *last);

/* The last number of a page, 0 where it has none. Refuses 4, 15 to 18, 20 to 23. */
uint32_t ouriscado_sh_page_last_fk(const uint8_t *page, size_t page_len, uint64_t *last);

/* Reads the numbers of a page into the start of out, and tells how many, and how many of them are padded.
   Refuses 4, 15 to 18, 20 to 23, 34. */
uint32_t ouriscado_sh_page_entries_into(
    const uint8_t *page, size_t page_len, uint64_t *out, size_t out_len, size_t *count, size_t *padded);

/* Reads the numbers of a page into the start of out, and tells how many, the next page's offset, 0 where the
   page is LAST, and how many of the numbers are padded. Refuses 4, 15 to 18, 20 to 23, 34. */
uint32_t ouriscado_sh_page_decode_slice_into(
    const uint8_t *page, size_t page_len, uint64_t *out, size_t out_len, size_t *count, uint64_t *next,
    size_t *padded);

/* Appends a number to a page, and tells whether it was: it isn't where the page is full. Refuses 4, 12, 13,
   15 to 18, 20 to 23, 32.
   WARNING: look at appended too: where the page is full the result is 0 and the number is not recorded. */
uint32_t ouriscado_sh_page_try_append(uint8_t *page, size_t page_len, uint64_t fk, bool *appended);

/* Writes the stream of a rising list to a page whose version is set, with its count, and tells its length.
   Refuses 4, 10, 12, 13, 32, 33.
   WARNING: the numbers that the page had are replaced; an empty list makes it read as empty. */
uint32_t ouriscado_sh_page_write_stream(
    uint8_t *page, size_t page_len, const uint64_t *fks, size_t fks_len, size_t *len);

/* Makes a page of version 1 of a rising list, with a next page, or LAST with first offset 0 where next is 0.
   Refuses 4 to 6, 10, 12, 13, 32, 33.
   WARNING: whatever the page held is replaced; an empty list makes it read as empty. */
uint32_t ouriscado_sh_page_pack_fks(
    uint8_t *page, size_t page_len, const uint64_t *fks, size_t fks_len, uint64_t next);

/* Makes a page of version 2 of a rising list, which names an extent, with a next page, or LAST with the
   extent's base where next is 0. Refuses 4 to 6, 8 to 10, 12, 13, 32, 33.
   WARNING: whatever the page held is replaced; an empty list makes it read as empty. */
uint32_t ouriscado_sh_page_pack_extent_last_fks(
    uint8_t *page, size_t page_len, const uint64_t *fks, size_t fks_len, uint64_t base, uint32_t n,
    uint64_t next);

/* ---- Cutting ----
   A list that is too long for one page is cut into parts, one for each page. A range is two indices into the
   list: of a part's first number, and behind its last. */

/* Cuts fks into parts, tells how many, and puts their ranges, each from an index up to another, to the start
   of out. Refuses 34. */
uint32_t ouriscado_sh_page_chunk_ranges(
    const uint64_t *fks, size_t fks_len, size_t (*out)[2], size_t out_len, size_t *parts);

/* Cuts the last of the first count ranges of chunks again, into parts that fit a last page, and tells how
   many ranges there are then. One that is empty, or leaves fks, stays. Refuses 34. */
uint32_t ouriscado_split_last_chunk_for_extent(
    const uint64_t *fks, size_t fks_len, size_t (*chunks)[2], size_t chunks_len, size_t count, size_t *parts);

/* ---- Free lists ----
   The free blocks of a class in a body are a stack: the class's free head has the offset of the block that
   was freed last, 0 for none, and the first 8 bytes of each freed block have the offset of the next. heads
   has the free heads of the classes 0 to 8. The mark is the offset up to which the body was ever used; blocks
   lie between 4,096 and it. */

/* Pushes a block onto its class's free list: its first 8 bytes name the head so far, and it becomes the head.
   Refuses 35. */
uint32_t ouriscado_push_free_head(
    uint8_t *body, size_t body_len, uint64_t heads[9], uint8_t class_, uint64_t off);

/* Pops a block of a class that lies below the mark, and hands out its offset, 0 where there is none. Refuses
   35. */
uint32_t ouriscado_pop_free_head(
    const uint8_t *body, size_t body_len, uint64_t heads[9], uint8_t class_, uint64_t mark, uint64_t *off);

/* Carves the gap between two offsets into blocks, from its low end, the largest class up to 7 first, and
   pushes them. Refuses 35. */
uint32_t ouriscado_carve_gap_into_freelist(
    uint8_t *body, size_t body_len, uint64_t heads[9], uint64_t from, uint64_t to);

/* The largest class of a slab whose blocks have at most so many bytes; the result says whether there is
   one. */
bool ouriscado_largest_reloc_class_le(uint64_t bytes, uint8_t *class_);

#ifdef __cplusplus
}
#endif
#endif
