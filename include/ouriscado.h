/* Ouriscado 0.1.0: an account book for record numbers, with its calls proved.
   Made by host/bindings.py from the exports and host/boundary: change those, and make it again.

   WHAT IT IS

   A book keeps a list of record numbers for each account, for instance the deposits that a shop received. A
   record number (the source of the format calls it Fk, a foreign key) is a 64-bit integer from 1 to
   OURISCADO_MOST_NUMBER that names a record which you keep elsewhere; 0 stands for no record. A list rises
   strictly: no number stands in it twice.

   A book is three things, which you hold, and lend to each call; one with desks has a fourth:

       body     bytes, in which the lists stand: a multiple of OURISCADO_PAGE_BYTES, at least
                OURISCADO_LEAST_BODY_BYTES and at most OURISCADO_MOST_BODY_BYTES
       heads    one 64-bit word for each account, 1 to OURISCADO_MOST_HEADS words: where its list stands.
                An account is named by its key, which is the index of its word, from 0
       state    OURISCADO_STATE_WORDS words of 64 bits, struct ouriscado_state: first the mark, which is the
                offset up to which the body was ever used, then the free heads: for each of nine sizes of
                block the offset of the block that was freed last, or 0; then OURISCADO_COUNT_WORDS counts:
                how many pages are freed, and of each desk the pages that it holds, its reserve and its
                ceiling
       desks    one byte for each account, the number of its desk, below OURISCADO_DESKS

   They belong together. Keep, copy, store and restore them together, as of one moment: a body with the
   heads of another day is a damaged book. They hold no pointers, so a copy elsewhere, or a file, is the same
   book. A call that is interrupted for good, because its process ends, may have written some of them and not
   others: go on from a copy of an earlier moment then. A head word that was lost, so that it became 0, reads
   as an account for which nothing is recorded.

   A book can grow: one that began fresh, or that ouriscado_book_check found good, is a good book with the same
   lists when it is lent a longer body, with whole pages behind it that may hold anything, or more heads, with
   words of 0 behind them and as many bytes of desks, within the limits (this is proved). So a call that was refused for lack of room
   (OURISCADO_NO_ROOM) is made again with the longer body and the same state. That helps up to 2^40 bytes for
   every list, and past them for lists in pages alone: a slab's word has 40 bits for its offset, so a slab taken
   at the mark ends at or below OURISCADO_SLABS_END, also where the body goes on behind it.

   DESKS

   Several users of one book, as branches or products, each with accounts of their own, are its desks. When a
   book is made, each desk is given a reserve, the pages that are kept for it, and a ceiling, the most that it
   gets. A list in pages takes them from its account's desk; slabs are no pages, but take none that desks lack
   of their reserves. A desk below its reserve that needs a page by an append gets it, whatever the other desks
   did (this is proved). Nothing of a desk is found out by trying: a call past the ceiling is refused with
   OURISCADO_PAST_CEILING, one that would eat into what others lack with OURISCADO_INTO_RESERVES.

   A BOOK WITHOUT DESKS needs none of this: its accounts are all desk 0's, reserves are 0, and ceilings are
   OURISCADO_NO_CEILING. It is made, called and checked with the short inline functions below, and is refused
   with neither of the two.

   There are nine calls:

       ouriscado_book_fresh         makes a book in which nothing is recorded
       ouriscado_book_load          records a whole list for an account that has none, with a spare slot for
                                    the next number
       ouriscado_book_load_tight    the same, in the smallest slab: for a list that is complete
       ouriscado_book_append        records one more number for an account
       ouriscado_book_extend        records many more, one after another, up to the first that is refused
       ouriscado_book_read          gives an account's list
       ouriscado_book_length        tells how long an account's list is
       ouriscado_book_drop          takes an account's list out of the book
       ouriscado_book_check         tells whether a body, heads and state from elsewhere are a good book to go
                                    on with

   They are lent the list of desks, and judge all of it and all counts each time, which takes a time that grows
   with the accounts: a read of one number took 14 ns with 1 account, 27 with 1,000 and 560 with 50,000 (Intel
   Xeon, x86-64). Beside seven of them stands a core, which is told one desk, and judges counts where it uses
   them: ouriscado_core_load, ouriscado_core_load_tight, ouriscado_core_append, ouriscado_core_extend,
   ouriscado_core_read, ouriscado_core_length and ouriscado_core_drop; that read took 5 ns there. Where list
   and counts are good both do the same. Take the core where you keep the list of desks yourself, and nobody
   else writes it: hand on desks[key].

   All take the state as pointers to its mark, its free heads and its counts; read and length of the core take
   the mark alone. Inline functions take one pointer to a struct ouriscado_state instead, and a program in C
   calls these:

       ouriscado_append          and so for all nine: for a book without desks, by the core with desk 0
       ouriscado_desk_append     by the core with a desk; for loads, append, extend and drop. A read is
                                 ouriscado_read
       ouriscado_desks_append    lent the list of desks; for all nine

   A whole program is in examples/c/shop.c of the repository, and installed beside NOTICE.

   WHAT IS PROVED

   Take a book that ouriscado_book_fresh made and any loads, tight or not, appends, reads and drops on it after
   that, with any arguments, refused ones included, where each call gets body, heads and state as the one
   before it left them, and the same list of desks, or the key's desk of it, and nobody else writes them;
   checks and lengths may stand between, since they write nothing of a book, and extends, since what an extend
   leaves is what the core's appends of its numbers leave, one after another, up to the first that is refused
   (this is proved). Then each read gives exactly the numbers that were recorded for its key since that key was
   last dropped, or is refused with 1, 2, 34 or 39; so a read that is accepted with length 0 says that nothing
   is recorded. A length is how many they are, and a read with room for it isn't refused with 34. Each call
   ends on every input, reads and writes only what it is lent, and checks for itself that the book is sound as
   far as it looks at it. Not proved: the toolchain, with its checker and the compiler's back end, and the
   linker; and your side of the boundary, that pointers and lengths are what you say, and that nothing
   interrupts a call.

   A book may also come from elsewhere, as from a file, written by this library or by other software of the
   same format. Where ouriscado_book_check tells that it is a good start, the same holds of any calls from
   then on, with the lists that a read gives at that moment as already recorded. Of other books only what
   each call tells of itself holds: they end, and stay within what they are lent.

   RESULTS

   Every call answers 0 where it was accepted, else the number of a refusal (enum ouriscado_refusal below). A
   refused call has changed nothing: body, heads, state and lists hold what they held. Numbers that go out
   through a pointer are 0 then. An extend of which a number was refused is accepted: it tells in accepted how
   many numbers before that one are recorded, and in refusal why the next one isn't.

   LOOK AT THE RESULT FIRST. A refused read also leaves 0 in its length: that says nothing about the account.
   Only a result of 0 together with a length of 0 says that nothing is recorded.

       uint64_t list[64], length, pages, padded;
       uint32_t refusal = ouriscado_read(body, body_len, heads, heads_len, &state, key,
                                         list, 64, &length, &pages, &padded);
       if (refusal == OURISCADO_ACCEPTED) use(list, length);         length 0: nothing is recorded
       else if (refusal == OURISCADO_LIST_TOO_SHORT) ask_again();    with more room; this is no empty account
       else tell_the_operator(refusal);                              nor is this

   UNITS, POINTERS, OWNERSHIP

   A slice is passed as a pointer and then its length, which counts elements: bytes of a body, words of heads,
   numbers of a list. Offsets count bytes from the start of the body. Integers that stand in a body have their
   lowest byte first. A parameter class_ is a class; class is a word of C++. All memory is yours. Nothing is
   allocated, no pointer is kept after the call, and there are no files, locks or clocks. A pointer may be
   null only where it is that of a slice of length 0. A pointer that a number goes out through may not, also
   where you don't want the number: to the proved functions it is a reference, of which there is no null, and
   what they promise says what every such number is afterwards. Lend a variable that you don't look at. What
   two parameters of one call point to must not overlap (heads must not lie in the body, say), and a pointer
   to a number must be aligned for it, as in any C program.

   THREADS

   There are no global variables. One book is for one call at a time: while a call runs, no other thread may
   write its body, heads, state or desks, nor use a list that was lent. Reads write only their list and the
   numbers that they hand out, so several may run at once on a book that nobody writes. Different books are
   independent.

   PLATFORM

   The library is compiled for x86-64 and the calling convention of Linux; it needs nothing but memcpy, memset
   and their like from the C library.

   STACK

   A load, tight or not, takes at most OURISCADO_STACK_LONG bytes of stack below its caller's frame, and any
   other call OURISCADO_STACK_BOOK (measured, and held by a test), where the C library's functions are bound
   before it. Numbers of a slab that is read, a list that moves, where the parts of a loaded list begin and end,
   and a flag for each of 262,144 pages while a run is sought are held there; pages are read straight into the
   lent list. */
#ifndef OURISCADO_H
#define OURISCADO_H
#include <stddef.h>
#include <stdint.h>
#ifdef __cplusplus
extern "C" {
#endif

/* The version of this header, as numbers and as text. The archive is of the version of the header that it was
   installed with. */
#define OURISCADO_VERSION_MAJOR 0
#define OURISCADO_VERSION_MINOR 1
#define OURISCADO_VERSION_PATCH 0
#define OURISCADO_VERSION "0.1.0"
static inline const char *ouriscado_version(void)
{
    return OURISCADO_VERSION;
}

/* Sizes and limits. */
#define OURISCADO_STATE_WORDS                  59 /* words of a state: the mark, nine free heads, then 49
                                                     counts */
#define OURISCADO_FREE_HEADS                    9 /* free heads of a state, one for each class from 0 to 8 */
#define OURISCADO_COUNT_WORDS                  49 /* counts of a state: freed pages, and of each desk the
                                                     pages that it holds, then all reserves, then all
                                                     ceilings */
#define OURISCADO_DESKS                        16 /* desks, of the numbers 0 to 15 */
#define OURISCADO_NO_CEILING        UINT64_C(18446744073709551615) /* the ceiling of a desk that may take
                                                                      every page */
#define OURISCADO_PAGE_BYTES                 4096 /* bytes of a page, and the unit of a body's length */
#define OURISCADO_LEAST_BODY_BYTES           8192 /* the least bytes of a body */
#define OURISCADO_MOST_BODY_BYTES   2199023255552 /* the most bytes of a body */
#define OURISCADO_SLABS_END         UINT64_C(1099511627776) /* the offset that no slab which is taken ends
                                                               past; pages may */
#define OURISCADO_MOST_HEADS                65536 /* the most head words, one for each account */
#define OURISCADO_MOST_NUMBER       UINT64_C(4611686018427387903) /* the largest record number */
#define OURISCADO_MOST_LOADED               65535 /* the most numbers in one load */
#define OURISCADO_MOST_IN_SLAB                256 /* the most numbers in a slab; a longer list stands in
                                                     pages */
#define OURISCADO_MOST_IN_PAGE               4088 /* the most numbers in a page */
#define OURISCADO_PAGE_CLASS                    8 /* the class of a page; slabs have the classes 0 to 7 */
#define OURISCADO_WORK_UNIT                   128 /* bytes of a body for each byte of the work list that a
                                                     check is lent */

/* A book's state: the mark, the free heads, and the counts: freed pages, then of each desk the pages that it holds,
   then the reserves, then the ceilings. Its bytes are those of OURISCADO_STATE_WORDS words. */
struct ouriscado_state {
    uint64_t mark;
    uint64_t free[OURISCADO_FREE_HEADS];
    uint64_t counts[OURISCADO_COUNT_WORDS];
};

/* Where a list stands: the kinds of place that an append tells. A list is inline with one number, then in a
   slab, which is a block of 16 to 2,048 bytes for up to OURISCADO_MOST_IN_SLAB numbers, then in pages, which
   are blocks of OURISCADO_PAGE_BYTES. */
#define OURISCADO_KIND_EMPTY                    0 /* the list is empty */
#define OURISCADO_KIND_INLINE                   1 /* one number, which stands in the head word itself */
#define OURISCADO_KIND_SLAB                     2 /* 2 to 256 numbers, in a slab of the body */
#define OURISCADO_KIND_PAGES                    3 /* in a chain of pages of the body */

/* Why a book from elsewhere isn't a good start: the ground that a check tells. */
#define OURISCADO_START_GOOD                    0 /* the start is good */
#define OURISCADO_START_KEY_UNSOUND             1 /* the key isn't sound: a read, a length and a drop of it
                                                     are refused with 31, a load with 3; an append and an
                                                     extend too are refused with 31, but of pages they look at
                                                     the last one alone, and may be accepted */
#define OURISCADO_START_KEY_SHARES              2 /* a block of the key shares bytes with another of its own,
                                                     or with one of a key before it */
#define OURISCADO_START_FREE_STRAYS             3 /* the free list names an offset where no such block can
                                                     stand: taking it is refused with 35, and of pages a run
                                                     with 42 */
#define OURISCADO_START_FREE_SHARES             4 /* a block of the free list shares bytes with one in use, or
                                                     with one that this list or one of a smaller class named
                                                     before; a list that doesn't end comes to such a block */
#define OURISCADO_START_COUNTS_EXCEED             5 /* freed and held pages are counted, with the first and
                                                       those past the mark, as more than the body has */
#define OURISCADO_START_FREED_UNTRUE             6 /* freed pages are counted as other than their list has: a
                                                      run is refused with 42 */
#define OURISCADO_START_HELD_UNTRUE             7 /* the desk's pages are counted as other than its keys
                                                     have */
#define OURISCADO_START_PAST_CEILING             8 /* the desk holds more pages than its ceiling */
#define OURISCADO_START_RESERVE_HIGH             9 /* the desk's reserve is above its ceiling */
#define OURISCADO_START_RESERVES_LACK            10 /* desks lack more pages of their reserves than are to be
                                                       had, freed or past the mark */

/* The bytes of stack that a call needs. */
#define OURISCADO_STACK_BOOK                 4096 /* bytes of stack of any call of the book but the loads */
#define OURISCADO_STACK_LONG                40960 /* bytes of stack of a load, tight or not, and of a ported
                                                     function that reads out more than 256 numbers */

/* Why a call is refused, and what an operator does then. Where several apply, the smallest number is given,
   save that 39 comes behind 1, and 42 before 36; but a list that is offered is judged number by number, and
   its first bad number decides. A key is sound where its head word, its slab or pages and the numbers in them
   are as the format has them. In a book that began with ouriscado_book_fresh or as a good start
   (ouriscado_book_check), that nobody else wrote, and whose calls all ran to their end, no call is refused with
   OURISCADO_KEY_UNSOUND, OURISCADO_FREE_LIST_BAD or OURISCADO_FREE_HEAD_BAD; save that a good start may have a
   slab, held or freed, that ends past OURISCADO_SLABS_END, which no call takes: where it is the first of its
   free list, taking one of its class is refused with OURISCADO_FREE_HEAD_BAD. */
enum ouriscado_refusal {
    /* No refusal: the call was accepted. */
    OURISCADO_ACCEPTED = 0,
    /* The book's shape breaks its limits: the body's length, the count of head words or the mark is outside
       of them; or a count of pages, or a reserve, is above the body's pages.
       Operator: checks that body, head words and state belong together and are whole; restores all three. */
    OURISCADO_SHAPE_BAD = 1,
    /* The key is beyond the heads: it isn't below the count of head words.
       Operator: checks the account's index; if that is right, the head words that were lent are not all. */
    OURISCADO_KEY_BEYOND = 2,
    /* A load meets a key in use: its head word isn't 0.
       Operator: appends instead, or drops the key first. */
    OURISCADO_KEY_IN_USE = 3,
    /* More than 65,535 numbers are offered in one call.
       Operator: loads the first 65,535 and appends the others. */
    OURISCADO_TOO_MANY_OFFERED = 10,
    /* The first or only number offered is 0.
       Operator: has the caller corrected: 0 stands for no record. */
    OURISCADO_OFFERED_FIRST_ZERO = 12,
    /* A number offered has bit 63 set: it is 2^63 or more.
       Operator: has the caller corrected. */
    OURISCADO_OFFERED_BIT_63 = 13,
    /* A book is offered 2^62 or more, and below 2^63.
       Operator: has the caller corrected; a book can't hold it. */
    OURISCADO_OFFERED_TOO_LARGE = 14,
    /* The key isn't sound: it is unknown, never taken for empty; or a drop has more pages than the key's desk
       holds.
       Operator: restores body, head words and state of one moment; finds out who else wrote them, which call
       was interrupted, or what was put together from two moments. */
    OURISCADO_KEY_UNSOUND = 31,
    /* A number offered isn't above the one before, in the list, the key or the page.
       Operator: reads the key: the number may be recorded already. */
    OURISCADO_OFFERED_NOT_RISING = 32,
    /* The lent list is too short: the numbers or ranges to be answered are more than it has room for, or the
       work list of a check has fewer bytes than one for each 128 of the body's.
       Operator: asks again with a longer list. */
    OURISCADO_LIST_TOO_SHORT = 34,
    /* A free head isn't a block of its class before the mark: it is unaligned, or lies outside of 4,096 up to
       the mark, or is a slab's in a book and ends past 2^40; or an append wants a page where just one of the
       free head of pages and their count is 0; or such a block is pushed, or such a gap carved.
       Operator: the state or a freed block is damaged: restores as for 31; reads go on meanwhile. A slab past
       2^40 is no damage: loads all lists into a fresh book. */
    OURISCADO_FREE_HEAD_BAD = 35,
    /* No room: the block or run would pass the body's end, or a slab 2^40; a block goes there only where none
       of its class is freed, and a run where no stretch of so many pages is.
       Operator: lends the same book a longer body, with whole pages behind it, and makes the call again;
       where the body can't grow, or a slab would pass 2^40, drops keys that are no longer needed, which frees
       blocks of their classes. */
    OURISCADO_NO_ROOM = 36,
    /* The desks can't be served: their list is of another length than the head words, or names a desk above
       15; or a making's reserves are, summed, more than the pages to be had, or one is above its ceiling.
       Operator: checks the list of desks, which belongs to the head words as their keys do; of a making, its
       reserves and ceilings. */
    OURISCADO_DESKS_BAD = 39,
    /* A take of pages would pass its desk's ceiling.
       Operator: drops keys of that desk, or has the book made anew with another ceiling; other desks go
       on. */
    OURISCADO_PAST_CEILING = 40,
    /* A take would leave fewer pages than desks lack of their reserves, as they would be after it.
       Operator: lends the same book a longer body, or drops keys with pages; a desk below its reserve still
       gets its pages one by one. */
    OURISCADO_INTO_RESERVES = 41,
    /* The list of freed pages can't be searched: a page of it leaves 4,096 to the mark, is unaligned or
       stands twice, or they aren't as many as counted.
       Operator: the state or a freed page is damaged: checks the book, and restores as for 31; reads,
       appends, drops and loads of other lists go on meanwhile. */
    OURISCADO_FREE_LIST_BAD = 42,
};

/* What a refusal says, as a text that lasts as long as the program; also of the refusals of ouriscado_codec.h.
   A number that this version has no refusal for gets a text that says so. */
static inline const char *ouriscado_refusal_text(uint32_t refusal)
{
    switch (refusal) {
    case 0: return "accepted";
    case 1: return "the book's shape breaks its limits";
    case 2: return "the key is beyond the heads";
    case 3: return "a load meets a key in use";
    case 4: return "a page buffer isn't 4,096 bytes";
    case 5: return "a link offset isn't a multiple of 4,096";
    case 6: return "a link index is 2^39 or more";
    case 7: return "the first offset is asked of a page without LAST";
    case 8: return "an extent count is 0";
    case 9: return "an extent base is 0 or unaligned";
    case 10: return "more than 65,535 numbers are offered";
    case 11: return "a slab buffer is under 2 bytes";
    case 12: return "the first or only number offered is 0";
    case 13: return "a number offered has bit 63 set";
    case 14: return "a book is offered 2^62 or more";
    case 15: return "a page's count exceeds its capacity";
    case 16: return "a page's version is above 2, or 0 with a count";
    case 17: return "the bytes end before a ULEB128 form does";
    case 18: return "a ULEB128 form overflows 64 bits";
    case 20: return "a stored first number is 0";
    case 21: return "a stored difference is 0";
    case 22: return "a stored sum passes 2^64 - 1";
    case 23: return "a stored number has bit 63 set";
    case 24: return "an inline head has used other than 1";
    case 25: return "an inline head exceeds 2^62 - 1";
    case 26: return "a slab head has offset above 2^40 - 1 or class above 63";
    case 27: return "an extent head is 0 or above 2^62 - 1";
    case 28: return "a stored slab head has used 0 or 1";
    case 29: return "a head word has mode 2";
    case 30: return "a head word of mode 3 has offset 0";
    case 31: return "the key isn't sound: it is unknown, never taken for empty";
    case 32: return "a number offered isn't above the one before";
    case 33: return "what is to be written doesn't fit its destination";
    case 34: return "the lent list is too short";
    case 35: return "a free head isn't a block of its class before the mark";
    case 36: return "no room: the block or run would pass the body's end";
    case 39: return "the desks can't be served";
    case 40: return "a take of pages would pass its desk's ceiling";
    case 41: return "a take would leave fewer pages than desks lack of their reserves";
    case 42: return "the list of freed pages can't be searched";
    default: return "a refusal that this version doesn't know";
    }
}

/* Makes a fresh book, in which every key is empty: all heads become 0, and mark, free and counts those of a
   book from which nothing was taken; the body isn't written. A book is these: a body, whose length is a
   multiple of 4,096 bytes from 8,192 to 2^41; heads, a word for each key, 1 to 65,536 of them; its state,
   which is the mark up to which the body was ever used, free, the first freed block of each of nine sizes,
   and counts; and desks, a byte for each key, the number of its desk, 0 to 15. counts are 49 words: how many
   pages of 4,096 bytes are freed, and then of each of the 16 desks the pages that it holds, its reserve and
   its ceiling. Of each desk reserve has the pages that are kept for it, and ceiling the most that it gets. A
   book without desks has bytes and reserves of 0, and ceilings of 2^64 - 1. What heads, mark, free and counts
   held before doesn't matter. Refuses 1, also where a reserve is above the body's pages, and 39, also where
   the reserves are, summed, more than the pages to be had, which are all but the first, or singly more than
   their own ceilings.

   The body may hold anything, since nothing is read of it before it is written: there is no need to clear it.
   Making a book fresh in place of one that is in use forgets all its records.

   Refusals: . */
uint32_t ouriscado_book_fresh(
    const uint8_t *body, size_t body_len, uint64_t *heads, size_t heads_len, uint64_t *mark,
    uint64_t free[OURISCADO_FREE_HEADS], uint64_t counts[OURISCADO_COUNT_WORDS], const uint8_t *desks,
    size_t desks_len, const uint64_t reserve[OURISCADO_DESKS], const uint64_t ceiling[OURISCADO_DESKS]);
static inline uint32_t ouriscado_desks_fresh(
    const uint8_t *body, size_t body_len, uint64_t *heads, size_t heads_len, struct ouriscado_state *state,
    const uint8_t *desks, size_t desks_len, const uint64_t reserve[OURISCADO_DESKS],
    const uint64_t ceiling[OURISCADO_DESKS])
{
    return ouriscado_book_fresh(
        body, body_len, heads, heads_len, &state->mark, state->free, state->counts, desks, desks_len,
        reserve, ceiling);
}

/* The list of desks of a book without desks: bytes of 0, as many as a book has head words at most. */
static inline const uint8_t *ouriscado_no_desks(void)
{
    static uint8_t none[OURISCADO_MOST_HEADS];
    return none;
}

/* How many of these bytes a book takes: one for each head word. More head words are refused with 1. */
static inline size_t ouriscado_no_desks_len(size_t heads_len)
{
    return heads_len < OURISCADO_MOST_HEADS ? heads_len : OURISCADO_MOST_HEADS;
}

/* Makes a fresh book without desks: reserves of 0, and no ceilings. */
static inline uint32_t ouriscado_fresh(
    const uint8_t *body, size_t body_len, uint64_t *heads, size_t heads_len, struct ouriscado_state *state)
{
    uint64_t reserve[OURISCADO_DESKS], ceiling[OURISCADO_DESKS];
    for (size_t desk = 0; desk < OURISCADO_DESKS; desk++) {
        reserve[desk] = 0;
        ceiling[desk] = OURISCADO_NO_CEILING;
    }
    return ouriscado_desks_fresh(body, body_len, heads, heads_len, state, ouriscado_no_desks(),
                                 ouriscado_no_desks_len(heads_len), reserve, ceiling);
}

/* Loads a list of record numbers onto an empty key; keys count from 0. The numbers rise strictly, from 1 to
   2^62 - 1, and there are 65,535 at most; with none, nothing changes. A list of 2 to 255 that goes to a slab
   has a slot for one number more there, so that the next append moves it only where its bytes don't fit.
   Hands out pages: how many pages of 4,096 bytes hold the list, 0 where it needs none. Refuses 1 to 3, 10, 12
   to 14, 32, 35, 36, 39 to 42.

   This is how to fill a book from another one or from an archive: a loaded list stands in the fewest pages
   that can hold it. A load of a longer list is a load of its first OURISCADO_MOST_LOADED numbers, and appends
   of the others.

   A list in pages gets a run of them side by side: the lowest stretch of so many freed pages, or else pages
   behind the mark. The search walks the list of freed pages, once in a body of up to 2^30 bytes, and once
   more where the run is taken out of it. With 250,000 freed pages in random order that took 0.2 s, with 1,000
   less than 0.1 ms.

   Refusals: OURISCADO_SHAPE_BAD (1), OURISCADO_KEY_BEYOND (2), OURISCADO_KEY_IN_USE (3),
   OURISCADO_TOO_MANY_OFFERED (10), OURISCADO_OFFERED_FIRST_ZERO (12), OURISCADO_OFFERED_BIT_63 (13),
   OURISCADO_OFFERED_TOO_LARGE (14), OURISCADO_OFFERED_NOT_RISING (32), OURISCADO_FREE_HEAD_BAD (35),
   OURISCADO_NO_ROOM (36), OURISCADO_DESKS_BAD (39), OURISCADO_PAST_CEILING (40), OURISCADO_INTO_RESERVES
   (41), OURISCADO_FREE_LIST_BAD (42). */
uint32_t ouriscado_book_load(
    uint8_t *body, size_t body_len, uint64_t *heads, size_t heads_len, uint64_t *mark,
    uint64_t free[OURISCADO_FREE_HEADS], uint64_t counts[OURISCADO_COUNT_WORDS], const uint8_t *desks,
    size_t desks_len, uint64_t key, const uint64_t *fks, size_t fks_len, uint64_t *pages);
static inline uint32_t ouriscado_desks_load(
    uint8_t *body, size_t body_len, uint64_t *heads, size_t heads_len, struct ouriscado_state *state,
    const uint8_t *desks, size_t desks_len, uint64_t key, const uint64_t *fks, size_t fks_len,
    uint64_t *pages)
{
    return ouriscado_book_load(
        body, body_len, heads, heads_len, &state->mark, state->free, state->counts, desks, desks_len, key,
        fks, fks_len, pages);
}

/* Loads a list of record numbers onto an empty key as ouriscado_book_load does, for the desk of a number: 39
   above 15. The counts are judged where blocks are taken, behind 36. Refuses 1 to 3, 10, 12 to 14, 32, 35,
   36, 39 to 42.

   Refusals: OURISCADO_SHAPE_BAD (1), OURISCADO_KEY_BEYOND (2), OURISCADO_KEY_IN_USE (3),
   OURISCADO_TOO_MANY_OFFERED (10), OURISCADO_OFFERED_FIRST_ZERO (12), OURISCADO_OFFERED_BIT_63 (13),
   OURISCADO_OFFERED_TOO_LARGE (14), OURISCADO_OFFERED_NOT_RISING (32), OURISCADO_FREE_HEAD_BAD (35),
   OURISCADO_NO_ROOM (36), OURISCADO_DESKS_BAD (39), OURISCADO_PAST_CEILING (40), OURISCADO_INTO_RESERVES
   (41), OURISCADO_FREE_LIST_BAD (42). */
uint32_t ouriscado_core_load(
    uint8_t *body, size_t body_len, uint64_t *heads, size_t heads_len, uint64_t *mark,
    uint64_t free[OURISCADO_FREE_HEADS], uint64_t counts[OURISCADO_COUNT_WORDS], uint64_t desk, uint64_t key,
    const uint64_t *fks, size_t fks_len, uint64_t *pages);
static inline uint32_t ouriscado_desk_load(
    uint8_t *body, size_t body_len, uint64_t *heads, size_t heads_len, struct ouriscado_state *state,
    uint64_t desk, uint64_t key, const uint64_t *fks, size_t fks_len, uint64_t *pages)
{
    return ouriscado_core_load(
        body, body_len, heads, heads_len, &state->mark, state->free, state->counts, desk, key, fks, fks_len,
        pages);
}
static inline uint32_t ouriscado_load(
    uint8_t *body, size_t body_len, uint64_t *heads, size_t heads_len, struct ouriscado_state *state,
    uint64_t key, const uint64_t *fks, size_t fks_len, uint64_t *pages)
{
    return ouriscado_core_load(
        body, body_len, heads, heads_len, &state->mark, state->free, state->counts, 0, key, fks, fks_len,
        pages);
}

/* Loads a list of record numbers onto an empty key as ouriscado_book_load does, but tight: into the smallest
   slab that holds its bytes, for lists that nothing is appended to. Hands out pages as that does. Refuses 1
   to 3, 10, 12 to 14, 32, 35, 36, 39 to 42.

   Lists of one number and those that go to pages stand as after the other load. The two may be mixed in one
   book; a list that was loaded tight may be appended to as any other, and moves where its slab has no slot
   left for the number, or too few bytes.

   Refusals: OURISCADO_SHAPE_BAD (1), OURISCADO_KEY_BEYOND (2), OURISCADO_KEY_IN_USE (3),
   OURISCADO_TOO_MANY_OFFERED (10), OURISCADO_OFFERED_FIRST_ZERO (12), OURISCADO_OFFERED_BIT_63 (13),
   OURISCADO_OFFERED_TOO_LARGE (14), OURISCADO_OFFERED_NOT_RISING (32), OURISCADO_FREE_HEAD_BAD (35),
   OURISCADO_NO_ROOM (36), OURISCADO_DESKS_BAD (39), OURISCADO_PAST_CEILING (40), OURISCADO_INTO_RESERVES
   (41), OURISCADO_FREE_LIST_BAD (42). */
uint32_t ouriscado_book_load_tight(
    uint8_t *body, size_t body_len, uint64_t *heads, size_t heads_len, uint64_t *mark,
    uint64_t free[OURISCADO_FREE_HEADS], uint64_t counts[OURISCADO_COUNT_WORDS], const uint8_t *desks,
    size_t desks_len, uint64_t key, const uint64_t *fks, size_t fks_len, uint64_t *pages);
static inline uint32_t ouriscado_desks_load_tight(
    uint8_t *body, size_t body_len, uint64_t *heads, size_t heads_len, struct ouriscado_state *state,
    const uint8_t *desks, size_t desks_len, uint64_t key, const uint64_t *fks, size_t fks_len,
    uint64_t *pages)
{
    return ouriscado_book_load_tight(
        body, body_len, heads, heads_len, &state->mark, state->free, state->counts, desks, desks_len, key,
        fks, fks_len, pages);
}

/* Loads a list of record numbers onto an empty key as ouriscado_book_load_tight does, for the desk of a
   number: 39 above 15. The counts are judged where blocks are taken, behind 36. Refuses 1 to 3, 10, 12 to 14,
   32, 35, 36, 39 to 42.

   Refusals: OURISCADO_SHAPE_BAD (1), OURISCADO_KEY_BEYOND (2), OURISCADO_KEY_IN_USE (3),
   OURISCADO_TOO_MANY_OFFERED (10), OURISCADO_OFFERED_FIRST_ZERO (12), OURISCADO_OFFERED_BIT_63 (13),
   OURISCADO_OFFERED_TOO_LARGE (14), OURISCADO_OFFERED_NOT_RISING (32), OURISCADO_FREE_HEAD_BAD (35),
   OURISCADO_NO_ROOM (36), OURISCADO_DESKS_BAD (39), OURISCADO_PAST_CEILING (40), OURISCADO_INTO_RESERVES
   (41), OURISCADO_FREE_LIST_BAD (42). */
uint32_t ouriscado_core_load_tight(
    uint8_t *body, size_t body_len, uint64_t *heads, size_t heads_len, uint64_t *mark,
    uint64_t free[OURISCADO_FREE_HEADS], uint64_t counts[OURISCADO_COUNT_WORDS], uint64_t desk, uint64_t key,
    const uint64_t *fks, size_t fks_len, uint64_t *pages);
static inline uint32_t ouriscado_desk_load_tight(
    uint8_t *body, size_t body_len, uint64_t *heads, size_t heads_len, struct ouriscado_state *state,
    uint64_t desk, uint64_t key, const uint64_t *fks, size_t fks_len, uint64_t *pages)
{
    return ouriscado_core_load_tight(
        body, body_len, heads, heads_len, &state->mark, state->free, state->counts, desk, key, fks, fks_len,
        pages);
}
static inline uint32_t ouriscado_load_tight(
    uint8_t *body, size_t body_len, uint64_t *heads, size_t heads_len, struct ouriscado_state *state,
    uint64_t key, const uint64_t *fks, size_t fks_len, uint64_t *pages)
{
    return ouriscado_core_load_tight(
        body, body_len, heads, heads_len, &state->mark, state->free, state->counts, 0, key, fks, fks_len,
        pages);
}

/* Appends a record number to the list of a key: a number from 1 to 2^62 - 1, above the last of the list.
   Hands out where the list now stands: kind is 1 where its only number stands in the head word, 2 for a slab,
   3 for pages; class is the slab's, else 0; used is how many numbers head word or slab hold, 0 for pages;
   place is the number itself, or the offset in the body, in bytes, of the slab or of the last page. Hands out
   rewritten: how many numbers a move of the list wrote anew, 0 where it stayed. Refuses 1, 2, 12 to 14, 31,
   32, 35, 36, 39 to 41.

   WARNING: key and fk are two numbers of one type side by side, and no compiler tells where they were
   exchanged: the call then records the key as a record of another account, and is accepted where both are
   small. Give the two types of their own, once:

       struct account { uint64_t key; };
       struct record { uint64_t number; };

       static uint32_t deposit(struct book *b, struct account to, struct record of)
       {
           uint8_t kind, class_;
           uint16_t used;
           uint64_t place, rewritten;
           return ouriscado_append(b->body, b->body_len, b->heads, b->heads_len, &b->state, to.key,
                                   of.number, &kind, &class_, &used, &place, &rewritten);
       }

   A number that isn't above the last is refused, so that no deposit stands in a list twice. When an append is
   refused with 36, the number is not recorded; keep it until there is room. In a book that began fresh or as
   a good start, a list moves at most 9 times from empty, or from the start, to its drop, and these moves
   write at most 765 numbers anew.

   Refusals: OURISCADO_SHAPE_BAD (1), OURISCADO_KEY_BEYOND (2), OURISCADO_OFFERED_FIRST_ZERO (12),
   OURISCADO_OFFERED_BIT_63 (13), OURISCADO_OFFERED_TOO_LARGE (14), OURISCADO_KEY_UNSOUND (31),
   OURISCADO_OFFERED_NOT_RISING (32), OURISCADO_FREE_HEAD_BAD (35), OURISCADO_NO_ROOM (36),
   OURISCADO_DESKS_BAD (39), OURISCADO_PAST_CEILING (40), OURISCADO_INTO_RESERVES (41). */
uint32_t ouriscado_book_append(
    uint8_t *body, size_t body_len, uint64_t *heads, size_t heads_len, uint64_t *mark,
    uint64_t free[OURISCADO_FREE_HEADS], uint64_t counts[OURISCADO_COUNT_WORDS], const uint8_t *desks,
    size_t desks_len, uint64_t key, uint64_t fk, uint8_t *kind, uint8_t *class_, uint16_t *used,
    uint64_t *place, uint64_t *rewritten);
static inline uint32_t ouriscado_desks_append(
    uint8_t *body, size_t body_len, uint64_t *heads, size_t heads_len, struct ouriscado_state *state,
    const uint8_t *desks, size_t desks_len, uint64_t key, uint64_t fk, uint8_t *kind, uint8_t *class_,
    uint16_t *used, uint64_t *place, uint64_t *rewritten)
{
    return ouriscado_book_append(
        body, body_len, heads, heads_len, &state->mark, state->free, state->counts, desks, desks_len, key,
        fk, kind, class_, used, place, rewritten);
}

/* Appends a record number to the list of a key as ouriscado_book_append does, for the desk of a number: 39
   above 15. The counts are judged where blocks are taken, behind 36. Refuses 1, 2, 12 to 14, 31, 32, 35, 36,
   39 to 41.

   Refusals: OURISCADO_SHAPE_BAD (1), OURISCADO_KEY_BEYOND (2), OURISCADO_OFFERED_FIRST_ZERO (12),
   OURISCADO_OFFERED_BIT_63 (13), OURISCADO_OFFERED_TOO_LARGE (14), OURISCADO_KEY_UNSOUND (31),
   OURISCADO_OFFERED_NOT_RISING (32), OURISCADO_FREE_HEAD_BAD (35), OURISCADO_NO_ROOM (36),
   OURISCADO_DESKS_BAD (39), OURISCADO_PAST_CEILING (40), OURISCADO_INTO_RESERVES (41). */
uint32_t ouriscado_core_append(
    uint8_t *body, size_t body_len, uint64_t *heads, size_t heads_len, uint64_t *mark,
    uint64_t free[OURISCADO_FREE_HEADS], uint64_t counts[OURISCADO_COUNT_WORDS], uint64_t desk, uint64_t key,
    uint64_t fk, uint8_t *kind, uint8_t *class_, uint16_t *used, uint64_t *place, uint64_t *rewritten);
static inline uint32_t ouriscado_desk_append(
    uint8_t *body, size_t body_len, uint64_t *heads, size_t heads_len, struct ouriscado_state *state,
    uint64_t desk, uint64_t key, uint64_t fk, uint8_t *kind, uint8_t *class_, uint16_t *used, uint64_t *place,
    uint64_t *rewritten)
{
    return ouriscado_core_append(
        body, body_len, heads, heads_len, &state->mark, state->free, state->counts, desk, key, fk, kind,
        class_, used, place, rewritten);
}
static inline uint32_t ouriscado_append(
    uint8_t *body, size_t body_len, uint64_t *heads, size_t heads_len, struct ouriscado_state *state,
    uint64_t key, uint64_t fk, uint8_t *kind, uint8_t *class_, uint16_t *used, uint64_t *place,
    uint64_t *rewritten)
{
    return ouriscado_core_append(
        body, body_len, heads, heads_len, &state->mark, state->free, state->counts, 0, key, fk, kind, class_,
        used, place, rewritten);
}

/* Appends record numbers to the list of a key, the first first, each as ouriscado_core_append does, until one
   is refused: those before it stay appended, and the call is accepted. The key is judged before the numbers,
   as an append judges it: of pages the last one alone. The list may have any length; of one without numbers
   the key is judged alone. Hands out accepted, how many numbers were appended; refusal, the number by which
   the next one was refused, which is 1, 12 to 14, 31, 32, 35, 36, 40 or 41, or 0 where all were appended;
   kind, class, used and place, where the list stands then, as an append tells it, with a kind of 0 for a key
   that is empty; moves, how many of the appends moved the list; and rewritten, how many numbers these wrote
   anew, summed. Refuses 1, 2, 31, 39.

   A result of 0 doesn't say that all numbers are recorded: look at refusal too. The number that was refused
   and those behind it are not recorded, and can be offered again:

       uint64_t accepted, place, moves, rewritten;
       uint32_t refusal, number;
       uint16_t used;
       uint8_t kind, class_;
       number = ouriscado_extend(body, body_len, heads, heads_len, &state, key, list, length,
                                 &accepted, &refusal, &kind, &class_, &used, &place, &moves, &rewritten);
       if (number != OURISCADO_ACCEPTED) return number;              nothing is recorded
       if (refusal == OURISCADO_NO_ROOM) make_room();                then offer list + accepted again
       else if (refusal != OURISCADO_ACCEPTED) tell_the_caller(refusal, list[accepted]);

   It leaves what as many appends leave, to the byte. A load is another thing: it is for a key that is empty,
   judges all of its list before it writes, and puts a long one into a run of pages.

   Refusals: OURISCADO_SHAPE_BAD (1), OURISCADO_KEY_BEYOND (2), OURISCADO_KEY_UNSOUND (31),
   OURISCADO_DESKS_BAD (39). */
uint32_t ouriscado_book_extend(
    uint8_t *body, size_t body_len, uint64_t *heads, size_t heads_len, uint64_t *mark,
    uint64_t free[OURISCADO_FREE_HEADS], uint64_t counts[OURISCADO_COUNT_WORDS], const uint8_t *desks,
    size_t desks_len, uint64_t key, const uint64_t *fks, size_t fks_len, uint64_t *accepted,
    uint32_t *refusal, uint8_t *kind, uint8_t *class_, uint16_t *used, uint64_t *place, uint64_t *moves,
    uint64_t *rewritten);
static inline uint32_t ouriscado_desks_extend(
    uint8_t *body, size_t body_len, uint64_t *heads, size_t heads_len, struct ouriscado_state *state,
    const uint8_t *desks, size_t desks_len, uint64_t key, const uint64_t *fks, size_t fks_len,
    uint64_t *accepted, uint32_t *refusal, uint8_t *kind, uint8_t *class_, uint16_t *used, uint64_t *place,
    uint64_t *moves, uint64_t *rewritten)
{
    return ouriscado_book_extend(
        body, body_len, heads, heads_len, &state->mark, state->free, state->counts, desks, desks_len, key,
        fks, fks_len, accepted, refusal, kind, class_, used, place, moves, rewritten);
}

/* Appends record numbers to the list of a key as ouriscado_book_extend does, for the desk of a number: 39
   above 15. The counts are judged where blocks are taken, behind 36. Refuses 1, 2, 31, 39.

   Refusals: OURISCADO_SHAPE_BAD (1), OURISCADO_KEY_BEYOND (2), OURISCADO_KEY_UNSOUND (31),
   OURISCADO_DESKS_BAD (39). */
uint32_t ouriscado_core_extend(
    uint8_t *body, size_t body_len, uint64_t *heads, size_t heads_len, uint64_t *mark,
    uint64_t free[OURISCADO_FREE_HEADS], uint64_t counts[OURISCADO_COUNT_WORDS], uint64_t desk, uint64_t key,
    const uint64_t *fks, size_t fks_len, uint64_t *accepted, uint32_t *refusal, uint8_t *kind,
    uint8_t *class_, uint16_t *used, uint64_t *place, uint64_t *moves, uint64_t *rewritten);
static inline uint32_t ouriscado_desk_extend(
    uint8_t *body, size_t body_len, uint64_t *heads, size_t heads_len, struct ouriscado_state *state,
    uint64_t desk, uint64_t key, const uint64_t *fks, size_t fks_len, uint64_t *accepted, uint32_t *refusal,
    uint8_t *kind, uint8_t *class_, uint16_t *used, uint64_t *place, uint64_t *moves, uint64_t *rewritten)
{
    return ouriscado_core_extend(
        body, body_len, heads, heads_len, &state->mark, state->free, state->counts, desk, key, fks, fks_len,
        accepted, refusal, kind, class_, used, place, moves, rewritten);
}
static inline uint32_t ouriscado_extend(
    uint8_t *body, size_t body_len, uint64_t *heads, size_t heads_len, struct ouriscado_state *state,
    uint64_t key, const uint64_t *fks, size_t fks_len, uint64_t *accepted, uint32_t *refusal, uint8_t *kind,
    uint8_t *class_, uint16_t *used, uint64_t *place, uint64_t *moves, uint64_t *rewritten)
{
    return ouriscado_core_extend(
        body, body_len, heads, heads_len, &state->mark, state->free, state->counts, 0, key, fks, fks_len,
        accepted, refusal, kind, class_, used, place, moves, rewritten);
}

/* Reads the list of a key into the start of out; what stands behind it there stays. Hands out length, how
   many record numbers the list has, pages, how many pages of 4,096 bytes were walked, and padded, how many of
   the numbers are stored in a longer form than the shortest: 0 of a key that this book's own calls filled. A
   read that is accepted with length 0 means that nothing is recorded for the key; of one that is refused
   length is 0 too, and says nothing of the key. Refuses 1, 2, 31, 34, 39.

   How long the list must be that you lend: an inline number needs 1; a slab needs the number that an append
   told as used, at most OURISCADO_MOST_IN_SLAB; a list in pages has at most OURISCADO_MOST_IN_PAGE numbers
   for each OURISCADO_PAGE_BYTES of the body. Without such knowledge, ask ouriscado_book_length first; or
   begin with any room, and while the call is refused with 34, ask again with twice the room.

   Padded numbers aren't wrong, only longer than needed: the list is the one that was recorded. Other software
   wrote them, and this book's calls never do; an append leaves them as they are, unless it moves the list. To
   be rid of them, load the list that was read for a key that is empty, as in a fresh book, or drop the key
   and load it anew; keep the list until that load is accepted, since it may lack room.

   Refusals: OURISCADO_SHAPE_BAD (1), OURISCADO_KEY_BEYOND (2), OURISCADO_KEY_UNSOUND (31),
   OURISCADO_LIST_TOO_SHORT (34), OURISCADO_DESKS_BAD (39). */
uint32_t ouriscado_book_read(
    const uint8_t *body, size_t body_len, const uint64_t *heads, size_t heads_len, uint64_t mark,
    const uint64_t counts[OURISCADO_COUNT_WORDS], const uint8_t *desks, size_t desks_len, uint64_t key,
    uint64_t *out, size_t out_len, uint64_t *length, uint64_t *pages, uint64_t *padded);
static inline uint32_t ouriscado_desks_read(
    const uint8_t *body, size_t body_len, const uint64_t *heads, size_t heads_len,
    const struct ouriscado_state *state, const uint8_t *desks, size_t desks_len, uint64_t key, uint64_t *out,
    size_t out_len, uint64_t *length, uint64_t *pages, uint64_t *padded)
{
    return ouriscado_book_read(
        body, body_len, heads, heads_len, state->mark, state->counts, desks, desks_len, key, out, out_len,
        length, pages, padded);
}

/* Reads the list of a key into the start of out as ouriscado_book_read does; it is lent neither counts nor
   desks. Refuses 1, 2, 31, 34.

   Refusals: OURISCADO_SHAPE_BAD (1), OURISCADO_KEY_BEYOND (2), OURISCADO_KEY_UNSOUND (31),
   OURISCADO_LIST_TOO_SHORT (34). */
uint32_t ouriscado_core_read(
    const uint8_t *body, size_t body_len, const uint64_t *heads, size_t heads_len, uint64_t mark,
    uint64_t key, uint64_t *out, size_t out_len, uint64_t *length, uint64_t *pages, uint64_t *padded);
static inline uint32_t ouriscado_read(
    const uint8_t *body, size_t body_len, const uint64_t *heads, size_t heads_len,
    const struct ouriscado_state *state, uint64_t key, uint64_t *out, size_t out_len, uint64_t *length,
    uint64_t *pages, uint64_t *padded)
{
    return ouriscado_core_read(
        body, body_len, heads, heads_len, state->mark, key, out, out_len, length, pages, padded);
}

/* Hands out length, how many record numbers the list of a key has: a list of that length that is lent to
   ouriscado_book_read isn't too short. The key is judged as a read judges it, and nothing is written. Refuses
   1, 2, 31, 39.

   With as much room, and no change of the book between, a read is accepted:

       uint64_t length, pages, padded, *list;
       uint32_t refusal = ouriscado_length(body, body_len, heads, heads_len, &state, key, &length);
       if (refusal != OURISCADO_ACCEPTED) return refusal;
       list = malloc((length ? length : 1) * sizeof *list);
       if (list) refusal = ouriscado_read(body, body_len, heads, heads_len, &state, key,
                                          list, length, &length, &pages, &padded);

   It takes the time in which a read judges the list; where room is at hand, a read alone takes less than
   both.

   Refusals: OURISCADO_SHAPE_BAD (1), OURISCADO_KEY_BEYOND (2), OURISCADO_KEY_UNSOUND (31),
   OURISCADO_DESKS_BAD (39). */
uint32_t ouriscado_book_length(
    const uint8_t *body, size_t body_len, const uint64_t *heads, size_t heads_len, uint64_t mark,
    const uint64_t counts[OURISCADO_COUNT_WORDS], const uint8_t *desks, size_t desks_len, uint64_t key,
    uint64_t *length);
static inline uint32_t ouriscado_desks_length(
    const uint8_t *body, size_t body_len, const uint64_t *heads, size_t heads_len,
    const struct ouriscado_state *state, const uint8_t *desks, size_t desks_len, uint64_t key,
    uint64_t *length)
{
    return ouriscado_book_length(
        body, body_len, heads, heads_len, state->mark, state->counts, desks, desks_len, key, length);
}

/* Tells how many record numbers the list of a key has, as ouriscado_book_length does; it is lent neither
   counts nor desks. Refuses 1, 2, 31.

   Refusals: OURISCADO_SHAPE_BAD (1), OURISCADO_KEY_BEYOND (2), OURISCADO_KEY_UNSOUND (31). */
uint32_t ouriscado_core_length(
    const uint8_t *body, size_t body_len, const uint64_t *heads, size_t heads_len, uint64_t mark,
    uint64_t key, uint64_t *length);
static inline uint32_t ouriscado_length(
    const uint8_t *body, size_t body_len, const uint64_t *heads, size_t heads_len,
    const struct ouriscado_state *state, uint64_t key, uint64_t *length)
{
    return ouriscado_core_length(body, body_len, heads, heads_len, state->mark, key, length);
}

/* Drops the list of a key: the key is empty then, and the book can use the list's slab or pages again. Hands
   out length, how many record numbers the list had. Refuses 1, 2, 31, also where the list has more pages than
   its desk holds, and 39.

   Afterwards the key reads as empty, and other keys may be given its blocks. Dropping a key that is empty is
   accepted and tells 0.

   Refusals: OURISCADO_DESKS_BAD (39). */
uint32_t ouriscado_book_drop(
    uint8_t *body, size_t body_len, uint64_t *heads, size_t heads_len, uint64_t *mark,
    uint64_t free[OURISCADO_FREE_HEADS], uint64_t counts[OURISCADO_COUNT_WORDS], const uint8_t *desks,
    size_t desks_len, uint64_t key, uint64_t *length);
static inline uint32_t ouriscado_desks_drop(
    uint8_t *body, size_t body_len, uint64_t *heads, size_t heads_len, struct ouriscado_state *state,
    const uint8_t *desks, size_t desks_len, uint64_t key, uint64_t *length)
{
    return ouriscado_book_drop(
        body, body_len, heads, heads_len, &state->mark, state->free, state->counts, desks, desks_len, key,
        length);
}

/* Drops the list of a key as ouriscado_book_drop does, for the desk of a number: 39 above 15. The counts are
   judged where the list has pages. Refuses 1, 2, 31, 39.

   Refusals: OURISCADO_SHAPE_BAD (1), OURISCADO_KEY_BEYOND (2), OURISCADO_KEY_UNSOUND (31),
   OURISCADO_DESKS_BAD (39). */
uint32_t ouriscado_core_drop(
    uint8_t *body, size_t body_len, uint64_t *heads, size_t heads_len, uint64_t *mark,
    uint64_t free[OURISCADO_FREE_HEADS], uint64_t counts[OURISCADO_COUNT_WORDS], uint64_t desk, uint64_t key,
    uint64_t *length);
static inline uint32_t ouriscado_desk_drop(
    uint8_t *body, size_t body_len, uint64_t *heads, size_t heads_len, struct ouriscado_state *state,
    uint64_t desk, uint64_t key, uint64_t *length)
{
    return ouriscado_core_drop(
        body, body_len, heads, heads_len, &state->mark, state->free, state->counts, desk, key, length);
}
static inline uint32_t ouriscado_drop(
    uint8_t *body, size_t body_len, uint64_t *heads, size_t heads_len, struct ouriscado_state *state,
    uint64_t key, uint64_t *length)
{
    return ouriscado_core_drop(
        body, body_len, heads, heads_len, &state->mark, state->free, state->counts, 0, key, length);
}

/* Tells whether a body, heads and state that come from elsewhere, as from a file, are a good start, with
   which the other calls may go on as with a book that began fresh: every key is sound; for each of the nine
   sizes of block the list of freed ones ends, and names only offsets where such a block can stand; no two
   blocks, in use or freed, share a byte; and the counts are true, no desk holds more than its ceiling and no
   reserve is above it, and the pages to be had cover what desks lack of their reserves. work is for the
   call's own use: a byte for each 128 bytes of the body, which may hold anything, and are 0 afterwards; what
   stands behind them stays. Nothing else is written. Hands out fault: 0 for a good start, else why it isn't
   one; and which: the key where the first fault was met, the class of the free list, or the desk, since keys
   are judged first, from 0 on, then free lists, from class 0 on, and then counts; 0 for a good start, and
   where the fault has none of these. Hands out lost beside a good start: how many units of 16 bytes, from
   byte 4,096 up to the mark, belong to no key and to no list of freed blocks; 0 where it isn't a good start.
   It is 0 in a book that began with ouriscado_book_fresh, and no call changes it, save that a start whose
   mark lies past 2^40 within a page loses the rest of that page with the next one that is taken. A head word
   that was lost, so that its key reads as empty, shows by the units of its slab, and that of a key with pages
   by its desk's count; the head of a list of freed slabs shows by their units, and that of freed pages by
   their count. The head word of a key with one record number takes no block, and its loss can't show: 0
   doesn't say that no word was lost. The files of other software may have such units: lost is a figure, no
   fault. Refuses 1, 34, 39.

   Call it once, before the first other call, on a book that you didn't make with ouriscado_book_fresh in this
   process. A result of 0 says that the book was judged: it is good only where fault is OURISCADO_START_GOOD
   too. The work list needs body_len / OURISCADO_WORK_UNIT bytes, which are 8 MiB for a body of 2^30 bytes, 8
   GiB for one of 2^40 and 16 GiB for the largest of 2^41; a longer one is taken as well, a shorter one is
   refused with 34. The time it takes is that of reading the body once or twice, and more where free lists
   lead to and fro in it, each block of them a read elsewhere: 2^30 bytes that are all freed blocks of 16 took
   23 s in random order, and 0.3 s in falling order.

   Of a last page whose total is 0 the total is unknown, which is sound: the node's own files have such pages.

   What an operator does where fault isn't 0: nothing is to be written to this book, by any call. Restore
   body, heads and state together, as of one moment, and check again. Where the fault is in the original,
   OURISCADO_START_KEY_UNSOUND names the first account whose list can't be read. Accounts behind it were not
   judged: there may be more such, and of those that read two may claim the same bytes. What is read of them,
   one by one, can be loaded into a fresh book, and has to be compared with what is known from elsewhere. With
   OURISCADO_START_KEY_SHARES two accounts, or two parts of one, claim the same bytes, so that one of the two
   lists at least is wrong: which of them is told by no call, and accounts behind were not judged either. With
   the other grounds every list reads and no two share bytes, and only freed blocks or counts are at fault:
   load all lists into a fresh book, and go on with that. With OURISCADO_START_HELD_UNTRUE the list of desks
   may be that of another book or moment, or the head word of an account with pages may be lost: look for that
   first.

   Where lost isn't 0 in a book that began with ouriscado_book_fresh, something other than these calls has
   changed it, or body, heads and state aren't of one moment: an account that reads as empty may have had a
   list. Restore the three together. In a book that began as a good start calls leave lost as it is, save that
   where its mark stands past OURISCADO_SLABS_END and within a page, the next page that is taken at the mark
   leaves the bytes up to it to nobody.

   Refusals: OURISCADO_SHAPE_BAD (1), OURISCADO_LIST_TOO_SHORT (34), OURISCADO_DESKS_BAD (39). */
uint32_t ouriscado_book_check(
    const uint8_t *body, size_t body_len, const uint64_t *heads, size_t heads_len, uint64_t mark,
    const uint64_t free[OURISCADO_FREE_HEADS], const uint64_t counts[OURISCADO_COUNT_WORDS],
    const uint8_t *desks, size_t desks_len, uint8_t *work, size_t work_len, uint32_t *fault, uint64_t *which,
    uint64_t *lost);
static inline uint32_t ouriscado_desks_check(
    const uint8_t *body, size_t body_len, const uint64_t *heads, size_t heads_len,
    const struct ouriscado_state *state, const uint8_t *desks, size_t desks_len, uint8_t *work,
    size_t work_len, uint32_t *fault, uint64_t *which, uint64_t *lost)
{
    return ouriscado_book_check(
        body, body_len, heads, heads_len, state->mark, state->free, state->counts, desks, desks_len, work,
        work_len, fault, which, lost);
}

/* Tells whether body, heads and state are a good start of a book without desks. */
static inline uint32_t ouriscado_check(
    const uint8_t *body, size_t body_len, const uint64_t *heads, size_t heads_len,
    const struct ouriscado_state *state, uint8_t *work, size_t work_len, uint32_t *fault, uint64_t *which,
    uint64_t *lost)
{
    return ouriscado_desks_check(body, body_len, heads, heads_len, state, ouriscado_no_desks(),
                                 ouriscado_no_desks_len(heads_len), work, work_len, fault, which, lost);
}

#ifdef __cplusplus
}
#endif
#endif
