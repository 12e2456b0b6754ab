//! The exported functions. Made by host/bindings.py from the exports and host/boundary: change those, and make it again.
//!
//! Each function over slices is sound: pointer and length are those of a slice that is lent for the call, what is written is
//! lent to nobody else, and the library keeps no pointer.
#![allow(clippy::too_many_arguments)]

/// The functions as the library defines them.
pub mod raw {
    extern "C" {
        /// Makes a fresh book, in which every key is empty: all heads become 0, and mark, free and counts those of a book from which
        /// nothing was taken; the body isn't written. A book is these: a body, whose length is a multiple of 4,096 bytes from 8,192 to
        /// 2^41; heads, a word for each key, 1 to 65,536 of them; its state, which is the mark up to which the body was ever used, free,
        /// the first freed block of each of nine sizes, and counts; and desks, a byte for each key, the number of its desk, 0 to 15. counts
        /// are 49 words: how many pages of 4,096 bytes are freed, and then of each of the 16 desks the pages that it holds, its reserve and
        /// its ceiling. Of each desk reserve has the pages that are kept for it, and ceiling the most that it gets. A book without desks
        /// has bytes and reserves of 0, and ceilings of 2^64 - 1. What heads, mark, free and counts held before doesn't matter. Refuses 1,
        /// also where a reserve is above the body's pages, and 39, also where the reserves are, summed, more than the pages to be had,
        /// which are all but the first, or singly more than their own ceilings.
        pub fn ouriscado_book_fresh(
            body: *const u8,
            body_len: usize,
            heads: *mut u64,
            heads_len: usize,
            mark: &mut u64,
            free: &mut [u64; 9],
            counts: &mut [u64; 49],
            desks: *const u8,
            desks_len: usize,
            reserve: &[u64; 16],
            ceiling: &[u64; 16],
        ) -> u32;
        /// Loads a list of record numbers onto an empty key; keys count from 0. The numbers rise strictly, from 1 to 2^62 - 1, and there
        /// are 65,535 at most; with none, nothing changes. A list of 2 to 255 that goes to a slab has a slot for one number more there, so
        /// that the next append moves it only where its bytes don't fit. Hands out pages: how many pages of 4,096 bytes hold the list, 0
        /// where it needs none. Refuses 1 to 3, 10, 12 to 14, 32, 35, 36, 39 to 42.
        pub fn ouriscado_book_load(
            body: *mut u8,
            body_len: usize,
            heads: *mut u64,
            heads_len: usize,
            mark: &mut u64,
            free: &mut [u64; 9],
            counts: &mut [u64; 49],
            desks: *const u8,
            desks_len: usize,
            key: u64,
            fks: *const u64,
            fks_len: usize,
            pages: &mut u64,
        ) -> u32;
        /// Loads a list of record numbers onto an empty key as ouriscado_book_load does, but tight: into the smallest slab that holds its
        /// bytes, for lists that nothing is appended to. Hands out pages as that does. Refuses 1 to 3, 10, 12 to 14, 32, 35, 36, 39 to 42.
        pub fn ouriscado_book_load_tight(
            body: *mut u8,
            body_len: usize,
            heads: *mut u64,
            heads_len: usize,
            mark: &mut u64,
            free: &mut [u64; 9],
            counts: &mut [u64; 49],
            desks: *const u8,
            desks_len: usize,
            key: u64,
            fks: *const u64,
            fks_len: usize,
            pages: &mut u64,
        ) -> u32;
        /// Appends a record number to the list of a key: a number from 1 to 2^62 - 1, above the last of the list. Hands out where the list
        /// now stands: kind is 1 where its only number stands in the head word, 2 for a slab, 3 for pages; class is the slab's, else 0;
        /// used is how many numbers head word or slab hold, 0 for pages; place is the number itself, or the offset in the body, in bytes,
        /// of the slab or of the last page. Hands out rewritten: how many numbers a move of the list wrote anew, 0 where it stayed. Refuses
        /// 1, 2, 12 to 14, 31, 32, 35, 36, 39 to 41.
        pub fn ouriscado_book_append(
            body: *mut u8,
            body_len: usize,
            heads: *mut u64,
            heads_len: usize,
            mark: &mut u64,
            free: &mut [u64; 9],
            counts: &mut [u64; 49],
            desks: *const u8,
            desks_len: usize,
            key: u64,
            fk: u64,
            kind: &mut u8,
            class: &mut u8,
            used: &mut u16,
            place: &mut u64,
            rewritten: &mut u64,
        ) -> u32;
        /// Reads the list of a key into the start of out; what stands behind it there stays. Hands out length, how many record numbers the
        /// list has, pages, how many pages of 4,096 bytes were walked, and padded, how many of the numbers are stored in a longer form than
        /// the shortest: 0 of a key that this book's own calls filled. A read that is accepted with length 0 means that nothing is recorded
        /// for the key; of one that is refused length is 0 too, and says nothing of the key. Refuses 1, 2, 31, 34, 39.
        pub fn ouriscado_book_read(
            body: *const u8,
            body_len: usize,
            heads: *const u64,
            heads_len: usize,
            mark: u64,
            counts: &[u64; 49],
            desks: *const u8,
            desks_len: usize,
            key: u64,
            out: *mut u64,
            out_len: usize,
            length: &mut u64,
            pages: &mut u64,
            padded: &mut u64,
        ) -> u32;
        /// Drops the list of a key: the key is empty then, and the book can use the list's slab or pages again. Hands out length, how many
        /// record numbers the list had. Refuses 1, 2, 31, also where the list has more pages than its desk holds, and 39.
        pub fn ouriscado_book_drop(
            body: *mut u8,
            body_len: usize,
            heads: *mut u64,
            heads_len: usize,
            mark: &mut u64,
            free: &mut [u64; 9],
            counts: &mut [u64; 49],
            desks: *const u8,
            desks_len: usize,
            key: u64,
            length: &mut u64,
        ) -> u32;
        /// Tells whether a body, heads and state that come from elsewhere, as from a file, are a good start, with which the other calls may
        /// go on as with a book that began fresh: every key is sound; for each of the nine sizes of block the list of freed ones ends, and
        /// names only offsets where such a block can stand; no two blocks, in use or freed, share a byte; and the counts are true, no desk
        /// holds more than its ceiling and no reserve is above it, and the pages to be had cover what desks lack of their reserves. work is
        /// for the call's own use: a byte for each 128 bytes of the body, which may hold anything, and are 0 afterwards; what stands behind
        /// them stays. Nothing else is written. Hands out fault: 0 for a good start, else why it isn't one; and which: the key where the
        /// first fault was met, the class of the free list, or the desk, since keys are judged first, from 0 on, then free lists, from
        /// class 0 on, and then counts; 0 for a good start, and where the fault has none of these. Hands out lost beside a good start: how
        /// many units of 16 bytes, from byte 4,096 up to the mark, belong to no key and to no list of freed blocks; 0 where it isn't a good
        /// start. It is 0 in a book that began with ouriscado_book_fresh, and no call changes it, save that a start whose mark lies past
        /// 2^40 within a page loses the rest of that page with the next one that is taken. A head word that was lost, so that its key reads
        /// as empty, shows by the units of its slab, and that of a key with pages by its desk's count; the head of a list of freed slabs
        /// shows by their units, and that of freed pages by their count. The head word of a key with one record number takes no block, and
        /// its loss can't show: 0 doesn't say that no word was lost. The files of other software may have such units: lost is a figure, no
        /// fault. Refuses 1, 34, 39.
        pub fn ouriscado_book_check(
            body: *const u8,
            body_len: usize,
            heads: *const u64,
            heads_len: usize,
            mark: u64,
            free: &[u64; 9],
            counts: &[u64; 49],
            desks: *const u8,
            desks_len: usize,
            work: *mut u8,
            work_len: usize,
            fault: &mut u32,
            which: &mut u64,
            lost: &mut u64,
        ) -> u32;
        /// Loads a list of record numbers onto an empty key as ouriscado_book_load does, for the desk of a number: 39 above 15. The counts
        /// are judged where blocks are taken, behind 36. Refuses 1 to 3, 10, 12 to 14, 32, 35, 36, 39 to 42.
        pub fn ouriscado_core_load(
            body: *mut u8,
            body_len: usize,
            heads: *mut u64,
            heads_len: usize,
            mark: &mut u64,
            free: &mut [u64; 9],
            counts: &mut [u64; 49],
            desk: u64,
            key: u64,
            fks: *const u64,
            fks_len: usize,
            pages: &mut u64,
        ) -> u32;
        /// Loads a list of record numbers onto an empty key as ouriscado_book_load_tight does, for the desk of a number: 39 above 15. The
        /// counts are judged where blocks are taken, behind 36. Refuses 1 to 3, 10, 12 to 14, 32, 35, 36, 39 to 42.
        pub fn ouriscado_core_load_tight(
            body: *mut u8,
            body_len: usize,
            heads: *mut u64,
            heads_len: usize,
            mark: &mut u64,
            free: &mut [u64; 9],
            counts: &mut [u64; 49],
            desk: u64,
            key: u64,
            fks: *const u64,
            fks_len: usize,
            pages: &mut u64,
        ) -> u32;
        /// Appends a record number to the list of a key as ouriscado_book_append does, for the desk of a number: 39 above 15. The counts
        /// are judged where blocks are taken, behind 36. Refuses 1, 2, 12 to 14, 31, 32, 35, 36, 39 to 41.
        pub fn ouriscado_core_append(
            body: *mut u8,
            body_len: usize,
            heads: *mut u64,
            heads_len: usize,
            mark: &mut u64,
            free: &mut [u64; 9],
            counts: &mut [u64; 49],
            desk: u64,
            key: u64,
            fk: u64,
            kind: &mut u8,
            class: &mut u8,
            used: &mut u16,
            place: &mut u64,
            rewritten: &mut u64,
        ) -> u32;
        /// Reads the list of a key into the start of out as ouriscado_book_read does; it is lent neither counts nor desks. Refuses 1, 2,
        /// 31, 34.
        pub fn ouriscado_core_read(
            body: *const u8,
            body_len: usize,
            heads: *const u64,
            heads_len: usize,
            mark: u64,
            key: u64,
            out: *mut u64,
            out_len: usize,
            length: &mut u64,
            pages: &mut u64,
            padded: &mut u64,
        ) -> u32;
        /// Drops the list of a key as ouriscado_book_drop does, for the desk of a number: 39 above 15. The counts are judged where the list
        /// has pages. Refuses 1, 2, 31, 39.
        pub fn ouriscado_core_drop(
            body: *mut u8,
            body_len: usize,
            heads: *mut u64,
            heads_len: usize,
            mark: &mut u64,
            free: &mut [u64; 9],
            counts: &mut [u64; 49],
            desk: u64,
            key: u64,
            length: &mut u64,
        ) -> u32;
        /// Appends record numbers to the list of a key as ouriscado_book_extend does, for the desk of a number: 39 above 15. The counts are
        /// judged where blocks are taken, behind 36. Refuses 1, 2, 31, 39.
        pub fn ouriscado_core_extend(
            body: *mut u8,
            body_len: usize,
            heads: *mut u64,
            heads_len: usize,
            mark: &mut u64,
            free: &mut [u64; 9],
            counts: &mut [u64; 49],
            desk: u64,
            key: u64,
            fks: *const u64,
            fks_len: usize,
            accepted: &mut u64,
            refusal: &mut u32,
            kind: &mut u8,
            class: &mut u8,
            used: &mut u16,
            place: &mut u64,
            moves: &mut u64,
            rewritten: &mut u64,
        ) -> u32;
        /// Appends record numbers to the list of a key, the first first, each as ouriscado_core_append does, until one is refused: those
        /// before it stay appended, and the call is accepted. The key is judged before the numbers, as an append judges it: of pages the
        /// last one alone. The list may have any length; of one without numbers the key is judged alone. Hands out accepted, how many
        /// numbers were appended; refusal, the number by which the next one was refused, which is 1, 12 to 14, 31, 32, 35, 36, 40 or 41, or
        /// 0 where all were appended; kind, class, used and place, where the list stands then, as an append tells it, with a kind of 0 for
        /// a key that is empty; moves, how many of the appends moved the list; and rewritten, how many numbers these wrote anew, summed.
        /// Refuses 1, 2, 31, 39.
        pub fn ouriscado_book_extend(
            body: *mut u8,
            body_len: usize,
            heads: *mut u64,
            heads_len: usize,
            mark: &mut u64,
            free: &mut [u64; 9],
            counts: &mut [u64; 49],
            desks: *const u8,
            desks_len: usize,
            key: u64,
            fks: *const u64,
            fks_len: usize,
            accepted: &mut u64,
            refusal: &mut u32,
            kind: &mut u8,
            class: &mut u8,
            used: &mut u16,
            place: &mut u64,
            moves: &mut u64,
            rewritten: &mut u64,
        ) -> u32;
        /// Tells how many record numbers the list of a key has, as ouriscado_book_length does; it is lent neither counts nor desks. Refuses
        /// 1, 2, 31.
        pub fn ouriscado_core_length(
            body: *const u8,
            body_len: usize,
            heads: *const u64,
            heads_len: usize,
            mark: u64,
            key: u64,
            length: &mut u64,
        ) -> u32;
        /// Hands out length, how many record numbers the list of a key has: a list of that length that is lent to ouriscado_book_read isn't
        /// too short. The key is judged as a read judges it, and nothing is written. Refuses 1, 2, 31, 39.
        pub fn ouriscado_book_length(
            body: *const u8,
            body_len: usize,
            heads: *const u64,
            heads_len: usize,
            mark: u64,
            counts: &[u64; 49],
            desks: *const u8,
            desks_len: usize,
            key: u64,
            length: &mut u64,
        ) -> u32;
        /// The smallest class whose bytes hold len bytes: none for 0 or above 2,048.
        pub fn ouriscado_slab_class_for_packed_len(len: usize, class: &mut u8) -> bool;
        /// The smallest class whose slots hold n numbers: none for 0, 1 or from 257 on.
        pub fn ouriscado_slab_class_for_n_fks(n: u32, class: &mut u8) -> bool;
        /// The class for one number more than n, or where there is none the class for n.
        pub fn ouriscado_slab_class_for_n_fks_with_slack(n: u32, class: &mut u8) -> bool;
        /// Cuts fks into parts, tells how many, and puts their ranges, each from an index up to another, to the start of out. Refuses 34.
        pub fn ouriscado_sh_page_chunk_ranges(
            fks: *const u64,
            fks_len: usize,
            out: *mut [usize; 2],
            out_len: usize,
            parts: &mut usize,
        ) -> u32;
        /// Cuts the last of the first count ranges of chunks again, into parts that fit a last page, and tells how many ranges there are
        /// then. One that is empty, or leaves fks, stays. Refuses 34.
        pub fn ouriscado_split_last_chunk_for_extent(
            fks: *const u64,
            fks_len: usize,
            chunks: *mut [usize; 2],
            chunks_len: usize,
            count: usize,
            parts: &mut usize,
        ) -> u32;
        /// The largest class of a slab whose blocks have at most so many bytes; the result says whether there is one.
        pub fn ouriscado_largest_reloc_class_le(bytes: u64, class: &mut u8) -> bool;
        /// Pushes a block onto its class's free list: its first 8 bytes name the head so far, and it becomes the head. Refuses 35.
        pub fn ouriscado_push_free_head(body: *mut u8, body_len: usize, heads: &mut [u64; 9], class: u8, off: u64) -> u32;
        /// Pops a block of a class that lies below the mark, and hands out its offset, 0 where there is none. Refuses 35.
        pub fn ouriscado_pop_free_head(body: *const u8, body_len: usize, heads: &mut [u64; 9], class: u8, mark: u64, off: &mut u64) -> u32;
        /// Carves the gap between two offsets into blocks, from its low end, the largest class up to 7 first, and pushes them. Refuses 35.
        pub fn ouriscado_carve_gap_into_freelist(body: *mut u8, body_len: usize, heads: &mut [u64; 9], from: u64, to: u64) -> u32;
        /// The word of no number.
        pub fn ouriscado_pack8_empty(word: &mut u64) -> u32;
        /// The word of an inline number. Refuses 24, 25.
        pub fn ouriscado_pack8_inline(entry: u64, used: u8, word: &mut u64) -> u32;
        /// The word of a slab. Refuses 26.
        pub fn ouriscado_pack8_slab(class: u8, used: u16, off: u64, word: &mut u64) -> u32;
        /// The word of pages, by the offset of the last. Refuses 27.
        pub fn ouriscado_pack8_extent(last: u64, word: &mut u64) -> u32;
        /// The eight bytes that store the head of no number.
        pub fn ouriscado_pack8_bytes_empty(out: &mut [u8; 8]) -> u32;
        /// The eight bytes that store an inline number. Refuses 24, 25.
        pub fn ouriscado_pack8_bytes_inline(entry: u64, used: u8, out: &mut [u8; 8]) -> u32;
        /// The eight bytes that store a slab's head. Refuses 26.
        pub fn ouriscado_pack8_bytes_slab(class: u8, used: u16, off: u64, out: &mut [u8; 8]) -> u32;
        /// The eight bytes that store the head of pages, by the offset of the last. Refuses 27.
        pub fn ouriscado_pack8_bytes_extent(last: u64, out: &mut [u8; 8]) -> u32;
        /// What a stored word says, as four numbers. Refuses 28 to 30.
        pub fn ouriscado_unpack8(w: u64, kind: &mut u8, class: &mut u8, used: &mut u16, place: &mut u64) -> u32;
        /// What eight stored bytes say, as four numbers. Refuses 28 to 30.
        pub fn ouriscado_unpack8_bytes(buf: &[u8; 8], kind: &mut u8, class: &mut u8, used: &mut u16, place: &mut u64) -> u32;
        /// How many bytes a page's stream takes, and its last number, 0 where it has none. Refuses 4, 15 to 18, 20 to 23.
        pub fn ouriscado_sh_page_stream_tail(page: *const u8, page_len: usize, taken: &mut usize, last: &mut u64) -> u32;
        /// The last number of a page, 0 where it has none. Refuses 4, 15 to 18, 20 to 23.
        pub fn ouriscado_sh_page_last_fk(page: *const u8, page_len: usize, last: &mut u64) -> u32;
        /// Reads the numbers of a page into the start of out, and tells how many, and how many of them are padded. Refuses 4, 15 to 18, 20
        /// to 23, 34.
        pub fn ouriscado_sh_page_entries_into(
            page: *const u8,
            page_len: usize,
            out: *mut u64,
            out_len: usize,
            count: &mut usize,
            padded: &mut usize,
        ) -> u32;
        /// Reads the numbers of a page into the start of out, and tells how many, the next page's offset, 0 where the page is LAST, and how
        /// many of the numbers are padded. Refuses 4, 15 to 18, 20 to 23, 34.
        pub fn ouriscado_sh_page_decode_slice_into(
            page: *const u8,
            page_len: usize,
            out: *mut u64,
            out_len: usize,
            count: &mut usize,
            next: &mut u64,
            padded: &mut usize,
        ) -> u32;
        /// Appends a number to a page, and tells whether it was: it isn't where the page is full. Refuses 4, 12, 13, 15 to 18, 20 to 23,
        /// 32.
        pub fn ouriscado_sh_page_try_append(page: *mut u8, page_len: usize, fk: u64, appended: &mut bool) -> u32;
        /// Writes the stream of a rising list to a page whose version is set, with its count, and tells its length. Refuses 4, 10, 12, 13,
        /// 32, 33.
        pub fn ouriscado_sh_page_write_stream(page: *mut u8, page_len: usize, fks: *const u64, fks_len: usize, len: &mut usize) -> u32;
        /// What a page's link says: whether the page is LAST, and the offset of the page that it names. Refuses 4.
        pub fn ouriscado_sh_page_read_packed(page: *const u8, page_len: usize, last: &mut bool, off: &mut u64) -> u32;
        /// Whether a page is LAST. Refuses 4.
        pub fn ouriscado_sh_page_is_last(page: *const u8, page_len: usize, last: &mut bool) -> u32;
        /// The first page's offset, of a page with LAST. Refuses 4, 7.
        pub fn ouriscado_sh_page_first_off(page: *const u8, page_len: usize, off: &mut u64) -> u32;
        /// The next page's offset, 0 where the page is LAST. Refuses 4.
        pub fn ouriscado_sh_page_next(page: *const u8, page_len: usize, off: &mut u64) -> u32;
        /// Writes a page's link: LAST or not, and the offset of the page that it names. Refuses 4 to 6.
        pub fn ouriscado_sh_page_write_packed(page: *mut u8, page_len: usize, last: bool, off: u64) -> u32;
        /// Makes a page LAST, with the first page's offset. Refuses 4 to 6.
        pub fn ouriscado_sh_page_set_last(page: *mut u8, page_len: usize, off: u64) -> u32;
        /// Gives a page a next page, without LAST. Refuses 4 to 6.
        pub fn ouriscado_sh_page_set_next(page: *mut u8, page_len: usize, off: u64) -> u32;
        /// Where a page's stream starts. Refuses 4.
        pub fn ouriscado_sh_page_stream_off(page: *const u8, page_len: usize, off: &mut usize) -> u32;
        /// How many bytes a page's stream may take. Refuses 4.
        pub fn ouriscado_sh_page_stream_cap(page: *const u8, page_len: usize, cap: &mut usize) -> u32;
        /// The extent that a page names, its base and how many pages it has: 0 and 0 outside version 2. Refuses 4, 8, 9.
        pub fn ouriscado_sh_page_extent(page: *const u8, page_len: usize, base: &mut u64, n: &mut u32) -> u32;
        /// Makes a page name an extent, in version 2. Refuses 4, 8, 9.
        pub fn ouriscado_sh_page_set_extent(page: *mut u8, page_len: usize, base: u64, n: u32) -> u32;
        /// A page's creates, 0 outside version 2. Refuses 4.
        pub fn ouriscado_sh_page_extent_creates(page: *const u8, page_len: usize, n: &mut u32) -> u32;
        /// Writes a page's creates, in version 2 only. Refuses 4.
        pub fn ouriscado_sh_page_set_extent_creates(page: *mut u8, page_len: usize, n: u32) -> u32;
        /// How many numbers a page has. Refuses 4, 15.
        pub fn ouriscado_sh_page_n_fks(page: *const u8, page_len: usize, n: &mut usize) -> u32;
        /// Writes a page's count. Refuses 4.
        pub fn ouriscado_sh_page_set_n_fks(page: *mut u8, page_len: usize, n: u16) -> u32;
        /// Passes a page that can be read. Refuses 4, 15, 16.
        pub fn ouriscado_sh_page_require_delta(page: *const u8, page_len: usize) -> u32;
        /// Makes a page empty: version 1, LAST with first offset 0, every other byte 0. Refuses 4.
        pub fn ouriscado_sh_page_init_empty(page: *mut u8, page_len: usize) -> u32;
        /// Makes a page of version 1 of a rising list, with a next page, or LAST with first offset 0 where next is 0. Refuses 4 to 6, 10,
        /// 12, 13, 32, 33.
        pub fn ouriscado_sh_page_pack_fks(page: *mut u8, page_len: usize, fks: *const u64, fks_len: usize, next: u64) -> u32;
        /// Makes a page of version 2 of a rising list, which names an extent, with a next page, or LAST with the extent's base where next
        /// is 0. Refuses 4 to 6, 8 to 10, 12, 13, 32, 33.
        pub fn ouriscado_sh_page_pack_extent_last_fks(
            page: *mut u8,
            page_len: usize,
            fks: *const u64,
            fks_len: usize,
            base: u64,
            n: u32,
            next: u64,
        ) -> u32;
        /// How many numbers a slab of a class has slots for, or 0 where that passes 32 bits.
        pub fn ouriscado_slab_cap(class: u8) -> u32;
        /// How many bytes a block of a class has, or 0 where that passes 64 bits.
        pub fn ouriscado_slab_bytes(class: u8) -> u64;
        /// The offset from which on lists stand in a file, whatever the length of the file's own header.
        pub fn ouriscado_payload_start(file_header_len: usize) -> u64;
        /// Writes the payload of a rising list to the start of out, and tells its length. Refuses 10 to 13, 32, 33.
        pub fn ouriscado_encode_slab_payload_into(out: *mut u8, out_len: usize, fks: *const u64, fks_len: usize, len: &mut usize) -> u32;
        /// Reads the payload at the start of buf into the start of out, and tells how many numbers it has, how many bytes it takes and how
        /// many of the numbers are padded. Refuses 11, 17, 18, 20 to 23, 34.
        pub fn ouriscado_decode_slab_payload_into(
            buf: *const u8,
            buf_len: usize,
            out: *mut u64,
            out_len: usize,
            used: &mut usize,
            len: &mut usize,
            padded: &mut usize,
        ) -> u32;
        /// Writes the stream of a rising list to the start of out, and tells its length. Refuses 12, 13, 32, 33.
        pub fn ouriscado_encode_fk_delta_stream_into(out: *mut u8, out_len: usize, fks: *const u64, fks_len: usize, len: &mut usize) -> u32;
        /// Reads a stream of n numbers at the start of buf into the start of out, and tells how many bytes it takes and how many of the
        /// numbers are padded: stored in a longer form than the shortest. Refuses 17, 18, 20 to 23, 34.
        pub fn ouriscado_decode_fk_delta_stream_into(
            buf: *const u8,
            buf_len: usize,
            n: usize,
            out: *mut u64,
            out_len: usize,
            taken: &mut usize,
            padded: &mut usize,
        ) -> u32;
        /// The length of the shortest form of n, in bytes.
        pub fn ouriscado_uleb128_len(n: u64) -> usize;
        /// Reads the number at the start of buf: its value, the length of its form, and whether that is the shortest form of the value.
        /// Refuses 17, 18.
        pub fn ouriscado_read_uleb128(buf: *const u8, buf_len: usize, value: &mut u64, len: &mut usize, shortest: &mut bool) -> u32;
        /// Writes the shortest form of n to the start of dst, and tells its length. Refuses 33.
        pub fn ouriscado_write_uleb128_into(dst: *mut u8, dst_len: usize, n: u64, len: &mut usize) -> u32;
    }
}

/// Makes a fresh book, in which every key is empty: all heads become 0, and mark, free and counts those of a book from which nothing was
/// taken; the body isn't written. A book is these: a body, whose length is a multiple of 4,096 bytes from 8,192 to 2^41; heads, a word for
/// each key, 1 to 65,536 of them; its state, which is the mark up to which the body was ever used, free, the first freed block of each of
/// nine sizes, and counts; and desks, a byte for each key, the number of its desk, 0 to 15. counts are 49 words: how many pages of 4,096
/// bytes are freed, and then of each of the 16 desks the pages that it holds, its reserve and its ceiling. Of each desk reserve has the
/// pages that are kept for it, and ceiling the most that it gets. A book without desks has bytes and reserves of 0, and ceilings of
/// 2^64 - 1. What heads, mark, free and counts held before doesn't matter. Refuses 1, also where a reserve is above the body's pages, and
/// 39, also where the reserves are, summed, more than the pages to be had, which are all but the first, or singly more than their own
/// ceilings.
#[inline]
#[must_use]
pub fn book_fresh(
    body: &[u8],
    heads: &mut [u64],
    mark: &mut u64,
    free: &mut [u64; 9],
    counts: &mut [u64; 49],
    desks: &[u8],
    reserve: &[u64; 16],
    ceiling: &[u64; 16],
) -> u32 {
    unsafe {
        raw::ouriscado_book_fresh(
            body.as_ptr(),
            body.len(),
            heads.as_mut_ptr(),
            heads.len(),
            mark,
            free,
            counts,
            desks.as_ptr(),
            desks.len(),
            reserve,
            ceiling,
        )
    }
}

/// Loads a list of record numbers onto an empty key; keys count from 0. The numbers rise strictly, from 1 to 2^62 - 1, and there are 65,535
/// at most; with none, nothing changes. A list of 2 to 255 that goes to a slab has a slot for one number more there, so that the next
/// append moves it only where its bytes don't fit. Hands out pages: how many pages of 4,096 bytes hold the list, 0 where it needs none.
/// Refuses 1 to 3, 10, 12 to 14, 32, 35, 36, 39 to 42.
#[inline]
#[must_use]
pub fn book_load(
    body: &mut [u8],
    heads: &mut [u64],
    mark: &mut u64,
    free: &mut [u64; 9],
    counts: &mut [u64; 49],
    desks: &[u8],
    key: u64,
    fks: &[u64],
    pages: &mut u64,
) -> u32 {
    unsafe {
        raw::ouriscado_book_load(
            body.as_mut_ptr(),
            body.len(),
            heads.as_mut_ptr(),
            heads.len(),
            mark,
            free,
            counts,
            desks.as_ptr(),
            desks.len(),
            key,
            fks.as_ptr(),
            fks.len(),
            pages,
        )
    }
}

/// Loads a list of record numbers onto an empty key as ouriscado_book_load does, but tight: into the smallest slab that holds its bytes,
/// for lists that nothing is appended to. Hands out pages as that does. Refuses 1 to 3, 10, 12 to 14, 32, 35, 36, 39 to 42.
#[inline]
#[must_use]
pub fn book_load_tight(
    body: &mut [u8],
    heads: &mut [u64],
    mark: &mut u64,
    free: &mut [u64; 9],
    counts: &mut [u64; 49],
    desks: &[u8],
    key: u64,
    fks: &[u64],
    pages: &mut u64,
) -> u32 {
    unsafe {
        raw::ouriscado_book_load_tight(
            body.as_mut_ptr(),
            body.len(),
            heads.as_mut_ptr(),
            heads.len(),
            mark,
            free,
            counts,
            desks.as_ptr(),
            desks.len(),
            key,
            fks.as_ptr(),
            fks.len(),
            pages,
        )
    }
}

/// Appends a record number to the list of a key: a number from 1 to 2^62 - 1, above the last of the list. Hands out where the list now
/// stands: kind is 1 where its only number stands in the head word, 2 for a slab, 3 for pages; class is the slab's, else 0; used is how
/// many numbers head word or slab hold, 0 for pages; place is the number itself, or the offset in the body, in bytes, of the slab or of the
/// last page. Hands out rewritten: how many numbers a move of the list wrote anew, 0 where it stayed. Refuses 1, 2, 12 to 14, 31, 32, 35,
/// 36, 39 to 41.
#[inline]
#[must_use]
pub fn book_append(
    body: &mut [u8],
    heads: &mut [u64],
    mark: &mut u64,
    free: &mut [u64; 9],
    counts: &mut [u64; 49],
    desks: &[u8],
    key: u64,
    fk: u64,
    kind: &mut u8,
    class: &mut u8,
    used: &mut u16,
    place: &mut u64,
    rewritten: &mut u64,
) -> u32 {
    unsafe {
        raw::ouriscado_book_append(
            body.as_mut_ptr(),
            body.len(),
            heads.as_mut_ptr(),
            heads.len(),
            mark,
            free,
            counts,
            desks.as_ptr(),
            desks.len(),
            key,
            fk,
            kind,
            class,
            used,
            place,
            rewritten,
        )
    }
}

/// Reads the list of a key into the start of out; what stands behind it there stays. Hands out length, how many record numbers the list
/// has, pages, how many pages of 4,096 bytes were walked, and padded, how many of the numbers are stored in a longer form than the
/// shortest: 0 of a key that this book's own calls filled. A read that is accepted with length 0 means that nothing is recorded for the
/// key; of one that is refused length is 0 too, and says nothing of the key. Refuses 1, 2, 31, 34, 39.
#[inline]
#[must_use]
pub fn book_read(
    body: &[u8],
    heads: &[u64],
    mark: u64,
    counts: &[u64; 49],
    desks: &[u8],
    key: u64,
    out: &mut [u64],
    length: &mut u64,
    pages: &mut u64,
    padded: &mut u64,
) -> u32 {
    unsafe {
        raw::ouriscado_book_read(
            body.as_ptr(),
            body.len(),
            heads.as_ptr(),
            heads.len(),
            mark,
            counts,
            desks.as_ptr(),
            desks.len(),
            key,
            out.as_mut_ptr(),
            out.len(),
            length,
            pages,
            padded,
        )
    }
}

/// Drops the list of a key: the key is empty then, and the book can use the list's slab or pages again. Hands out length, how many record
/// numbers the list had. Refuses 1, 2, 31, also where the list has more pages than its desk holds, and 39.
#[inline]
#[must_use]
pub fn book_drop(
    body: &mut [u8],
    heads: &mut [u64],
    mark: &mut u64,
    free: &mut [u64; 9],
    counts: &mut [u64; 49],
    desks: &[u8],
    key: u64,
    length: &mut u64,
) -> u32 {
    unsafe {
        raw::ouriscado_book_drop(
            body.as_mut_ptr(),
            body.len(),
            heads.as_mut_ptr(),
            heads.len(),
            mark,
            free,
            counts,
            desks.as_ptr(),
            desks.len(),
            key,
            length,
        )
    }
}

/// Tells whether a body, heads and state that come from elsewhere, as from a file, are a good start, with which the other calls may go on
/// as with a book that began fresh: every key is sound; for each of the nine sizes of block the list of freed ones ends, and names only
/// offsets where such a block can stand; no two blocks, in use or freed, share a byte; and the counts are true, no desk holds more than its
/// ceiling and no reserve is above it, and the pages to be had cover what desks lack of their reserves. work is for the call's own use: a
/// byte for each 128 bytes of the body, which may hold anything, and are 0 afterwards; what stands behind them stays. Nothing else is
/// written. Hands out fault: 0 for a good start, else why it isn't one; and which: the key where the first fault was met, the class of the
/// free list, or the desk, since keys are judged first, from 0 on, then free lists, from class 0 on, and then counts; 0 for a good start,
/// and where the fault has none of these. Hands out lost beside a good start: how many units of 16 bytes, from byte 4,096 up to the mark,
/// belong to no key and to no list of freed blocks; 0 where it isn't a good start. It is 0 in a book that began with ouriscado_book_fresh,
/// and no call changes it, save that a start whose mark lies past 2^40 within a page loses the rest of that page with the next one that is
/// taken. A head word that was lost, so that its key reads as empty, shows by the units of its slab, and that of a key with pages by its
/// desk's count; the head of a list of freed slabs shows by their units, and that of freed pages by their count. The head word of a key
/// with one record number takes no block, and its loss can't show: 0 doesn't say that no word was lost. The files of other software may
/// have such units: lost is a figure, no fault. Refuses 1, 34, 39.
#[inline]
#[must_use]
pub fn book_check(
    body: &[u8],
    heads: &[u64],
    mark: u64,
    free: &[u64; 9],
    counts: &[u64; 49],
    desks: &[u8],
    work: &mut [u8],
    fault: &mut u32,
    which: &mut u64,
    lost: &mut u64,
) -> u32 {
    unsafe {
        raw::ouriscado_book_check(
            body.as_ptr(),
            body.len(),
            heads.as_ptr(),
            heads.len(),
            mark,
            free,
            counts,
            desks.as_ptr(),
            desks.len(),
            work.as_mut_ptr(),
            work.len(),
            fault,
            which,
            lost,
        )
    }
}

/// Loads a list of record numbers onto an empty key as ouriscado_book_load does, for the desk of a number: 39 above 15. The counts are
/// judged where blocks are taken, behind 36. Refuses 1 to 3, 10, 12 to 14, 32, 35, 36, 39 to 42.
#[inline]
#[must_use]
pub fn core_load(
    body: &mut [u8],
    heads: &mut [u64],
    mark: &mut u64,
    free: &mut [u64; 9],
    counts: &mut [u64; 49],
    desk: u64,
    key: u64,
    fks: &[u64],
    pages: &mut u64,
) -> u32 {
    unsafe {
        raw::ouriscado_core_load(
            body.as_mut_ptr(),
            body.len(),
            heads.as_mut_ptr(),
            heads.len(),
            mark,
            free,
            counts,
            desk,
            key,
            fks.as_ptr(),
            fks.len(),
            pages,
        )
    }
}

/// Loads a list of record numbers onto an empty key as ouriscado_book_load_tight does, for the desk of a number: 39 above 15. The counts
/// are judged where blocks are taken, behind 36. Refuses 1 to 3, 10, 12 to 14, 32, 35, 36, 39 to 42.
#[inline]
#[must_use]
pub fn core_load_tight(
    body: &mut [u8],
    heads: &mut [u64],
    mark: &mut u64,
    free: &mut [u64; 9],
    counts: &mut [u64; 49],
    desk: u64,
    key: u64,
    fks: &[u64],
    pages: &mut u64,
) -> u32 {
    unsafe {
        raw::ouriscado_core_load_tight(
            body.as_mut_ptr(),
            body.len(),
            heads.as_mut_ptr(),
            heads.len(),
            mark,
            free,
            counts,
            desk,
            key,
            fks.as_ptr(),
            fks.len(),
            pages,
        )
    }
}

/// Appends a record number to the list of a key as ouriscado_book_append does, for the desk of a number: 39 above 15. The counts are judged
/// where blocks are taken, behind 36. Refuses 1, 2, 12 to 14, 31, 32, 35, 36, 39 to 41.
#[inline]
#[must_use]
pub fn core_append(
    body: &mut [u8],
    heads: &mut [u64],
    mark: &mut u64,
    free: &mut [u64; 9],
    counts: &mut [u64; 49],
    desk: u64,
    key: u64,
    fk: u64,
    kind: &mut u8,
    class: &mut u8,
    used: &mut u16,
    place: &mut u64,
    rewritten: &mut u64,
) -> u32 {
    unsafe {
        raw::ouriscado_core_append(
            body.as_mut_ptr(),
            body.len(),
            heads.as_mut_ptr(),
            heads.len(),
            mark,
            free,
            counts,
            desk,
            key,
            fk,
            kind,
            class,
            used,
            place,
            rewritten,
        )
    }
}

/// Reads the list of a key into the start of out as ouriscado_book_read does; it is lent neither counts nor desks. Refuses 1, 2, 31, 34.
#[inline]
#[must_use]
pub fn core_read(
    body: &[u8],
    heads: &[u64],
    mark: u64,
    key: u64,
    out: &mut [u64],
    length: &mut u64,
    pages: &mut u64,
    padded: &mut u64,
) -> u32 {
    unsafe {
        raw::ouriscado_core_read(
            body.as_ptr(),
            body.len(),
            heads.as_ptr(),
            heads.len(),
            mark,
            key,
            out.as_mut_ptr(),
            out.len(),
            length,
            pages,
            padded,
        )
    }
}

/// Drops the list of a key as ouriscado_book_drop does, for the desk of a number: 39 above 15. The counts are judged where the list has
/// pages. Refuses 1, 2, 31, 39.
#[inline]
#[must_use]
pub fn core_drop(
    body: &mut [u8],
    heads: &mut [u64],
    mark: &mut u64,
    free: &mut [u64; 9],
    counts: &mut [u64; 49],
    desk: u64,
    key: u64,
    length: &mut u64,
) -> u32 {
    unsafe {
        raw::ouriscado_core_drop(body.as_mut_ptr(), body.len(), heads.as_mut_ptr(), heads.len(), mark, free, counts, desk, key, length)
    }
}

/// Appends record numbers to the list of a key as ouriscado_book_extend does, for the desk of a number: 39 above 15. The counts are judged
/// where blocks are taken, behind 36. Refuses 1, 2, 31, 39.
#[inline]
#[must_use]
pub fn core_extend(
    body: &mut [u8],
    heads: &mut [u64],
    mark: &mut u64,
    free: &mut [u64; 9],
    counts: &mut [u64; 49],
    desk: u64,
    key: u64,
    fks: &[u64],
    accepted: &mut u64,
    refusal: &mut u32,
    kind: &mut u8,
    class: &mut u8,
    used: &mut u16,
    place: &mut u64,
    moves: &mut u64,
    rewritten: &mut u64,
) -> u32 {
    unsafe {
        raw::ouriscado_core_extend(
            body.as_mut_ptr(),
            body.len(),
            heads.as_mut_ptr(),
            heads.len(),
            mark,
            free,
            counts,
            desk,
            key,
            fks.as_ptr(),
            fks.len(),
            accepted,
            refusal,
            kind,
            class,
            used,
            place,
            moves,
            rewritten,
        )
    }
}

/// Appends record numbers to the list of a key, the first first, each as ouriscado_core_append does, until one is refused: those before it
/// stay appended, and the call is accepted. The key is judged before the numbers, as an append judges it: of pages the last one alone. The
/// list may have any length; of one without numbers the key is judged alone. Hands out accepted, how many numbers were appended; refusal,
/// the number by which the next one was refused, which is 1, 12 to 14, 31, 32, 35, 36, 40 or 41, or 0 where all were appended; kind, class,
/// used and place, where the list stands then, as an append tells it, with a kind of 0 for a key that is empty; moves, how many of the
/// appends moved the list; and rewritten, how many numbers these wrote anew, summed. Refuses 1, 2, 31, 39.
#[inline]
#[must_use]
pub fn book_extend(
    body: &mut [u8],
    heads: &mut [u64],
    mark: &mut u64,
    free: &mut [u64; 9],
    counts: &mut [u64; 49],
    desks: &[u8],
    key: u64,
    fks: &[u64],
    accepted: &mut u64,
    refusal: &mut u32,
    kind: &mut u8,
    class: &mut u8,
    used: &mut u16,
    place: &mut u64,
    moves: &mut u64,
    rewritten: &mut u64,
) -> u32 {
    unsafe {
        raw::ouriscado_book_extend(
            body.as_mut_ptr(),
            body.len(),
            heads.as_mut_ptr(),
            heads.len(),
            mark,
            free,
            counts,
            desks.as_ptr(),
            desks.len(),
            key,
            fks.as_ptr(),
            fks.len(),
            accepted,
            refusal,
            kind,
            class,
            used,
            place,
            moves,
            rewritten,
        )
    }
}

/// Tells how many record numbers the list of a key has, as ouriscado_book_length does; it is lent neither counts nor desks. Refuses 1, 2,
/// 31.
#[inline]
#[must_use]
pub fn core_length(body: &[u8], heads: &[u64], mark: u64, key: u64, length: &mut u64) -> u32 {
    unsafe { raw::ouriscado_core_length(body.as_ptr(), body.len(), heads.as_ptr(), heads.len(), mark, key, length) }
}

/// Hands out length, how many record numbers the list of a key has: a list of that length that is lent to ouriscado_book_read isn't too
/// short. The key is judged as a read judges it, and nothing is written. Refuses 1, 2, 31, 39.
#[inline]
#[must_use]
pub fn book_length(body: &[u8], heads: &[u64], mark: u64, counts: &[u64; 49], desks: &[u8], key: u64, length: &mut u64) -> u32 {
    unsafe {
        raw::ouriscado_book_length(
            body.as_ptr(),
            body.len(),
            heads.as_ptr(),
            heads.len(),
            mark,
            counts,
            desks.as_ptr(),
            desks.len(),
            key,
            length,
        )
    }
}

/// The smallest class whose bytes hold len bytes: none for 0 or above 2,048.
#[inline]
#[must_use]
pub fn slab_class_for_packed_len(len: usize, class: &mut u8) -> bool {
    unsafe { raw::ouriscado_slab_class_for_packed_len(len, class) }
}

/// The smallest class whose slots hold n numbers: none for 0, 1 or from 257 on.
#[inline]
#[must_use]
pub fn slab_class_for_n_fks(n: u32, class: &mut u8) -> bool {
    unsafe { raw::ouriscado_slab_class_for_n_fks(n, class) }
}

/// The class for one number more than n, or where there is none the class for n.
#[inline]
#[must_use]
pub fn slab_class_for_n_fks_with_slack(n: u32, class: &mut u8) -> bool {
    unsafe { raw::ouriscado_slab_class_for_n_fks_with_slack(n, class) }
}

/// Cuts fks into parts, tells how many, and puts their ranges, each from an index up to another, to the start of out. Refuses 34.
#[inline]
#[must_use]
pub fn sh_page_chunk_ranges(fks: &[u64], out: &mut [[usize; 2]], parts: &mut usize) -> u32 {
    unsafe { raw::ouriscado_sh_page_chunk_ranges(fks.as_ptr(), fks.len(), out.as_mut_ptr(), out.len(), parts) }
}

/// Cuts the last of the first count ranges of chunks again, into parts that fit a last page, and tells how many ranges there are then. One
/// that is empty, or leaves fks, stays. Refuses 34.
#[inline]
#[must_use]
pub fn split_last_chunk_for_extent(fks: &[u64], chunks: &mut [[usize; 2]], count: usize, parts: &mut usize) -> u32 {
    unsafe { raw::ouriscado_split_last_chunk_for_extent(fks.as_ptr(), fks.len(), chunks.as_mut_ptr(), chunks.len(), count, parts) }
}

/// The largest class of a slab whose blocks have at most so many bytes; the result says whether there is one.
#[inline]
#[must_use]
pub fn largest_reloc_class_le(bytes: u64, class: &mut u8) -> bool {
    unsafe { raw::ouriscado_largest_reloc_class_le(bytes, class) }
}

/// Pushes a block onto its class's free list: its first 8 bytes name the head so far, and it becomes the head. Refuses 35.
#[inline]
#[must_use]
pub fn push_free_head(body: &mut [u8], heads: &mut [u64; 9], class: u8, off: u64) -> u32 {
    unsafe { raw::ouriscado_push_free_head(body.as_mut_ptr(), body.len(), heads, class, off) }
}

/// Pops a block of a class that lies below the mark, and hands out its offset, 0 where there is none. Refuses 35.
#[inline]
#[must_use]
pub fn pop_free_head(body: &[u8], heads: &mut [u64; 9], class: u8, mark: u64, off: &mut u64) -> u32 {
    unsafe { raw::ouriscado_pop_free_head(body.as_ptr(), body.len(), heads, class, mark, off) }
}

/// Carves the gap between two offsets into blocks, from its low end, the largest class up to 7 first, and pushes them. Refuses 35.
#[inline]
#[must_use]
pub fn carve_gap_into_freelist(body: &mut [u8], heads: &mut [u64; 9], from: u64, to: u64) -> u32 {
    unsafe { raw::ouriscado_carve_gap_into_freelist(body.as_mut_ptr(), body.len(), heads, from, to) }
}

/// The word of no number.
#[inline]
#[must_use]
pub fn pack8_empty(word: &mut u64) -> u32 {
    unsafe { raw::ouriscado_pack8_empty(word) }
}

/// The word of an inline number. Refuses 24, 25.
#[inline]
#[must_use]
pub fn pack8_inline(entry: u64, used: u8, word: &mut u64) -> u32 {
    unsafe { raw::ouriscado_pack8_inline(entry, used, word) }
}

/// The word of a slab. Refuses 26.
#[inline]
#[must_use]
pub fn pack8_slab(class: u8, used: u16, off: u64, word: &mut u64) -> u32 {
    unsafe { raw::ouriscado_pack8_slab(class, used, off, word) }
}

/// The word of pages, by the offset of the last. Refuses 27.
#[inline]
#[must_use]
pub fn pack8_extent(last: u64, word: &mut u64) -> u32 {
    unsafe { raw::ouriscado_pack8_extent(last, word) }
}

/// The eight bytes that store the head of no number.
#[inline]
#[must_use]
pub fn pack8_bytes_empty(out: &mut [u8; 8]) -> u32 {
    unsafe { raw::ouriscado_pack8_bytes_empty(out) }
}

/// The eight bytes that store an inline number. Refuses 24, 25.
#[inline]
#[must_use]
pub fn pack8_bytes_inline(entry: u64, used: u8, out: &mut [u8; 8]) -> u32 {
    unsafe { raw::ouriscado_pack8_bytes_inline(entry, used, out) }
}

/// The eight bytes that store a slab's head. Refuses 26.
#[inline]
#[must_use]
pub fn pack8_bytes_slab(class: u8, used: u16, off: u64, out: &mut [u8; 8]) -> u32 {
    unsafe { raw::ouriscado_pack8_bytes_slab(class, used, off, out) }
}

/// The eight bytes that store the head of pages, by the offset of the last. Refuses 27.
#[inline]
#[must_use]
pub fn pack8_bytes_extent(last: u64, out: &mut [u8; 8]) -> u32 {
    unsafe { raw::ouriscado_pack8_bytes_extent(last, out) }
}

/// What a stored word says, as four numbers. Refuses 28 to 30.
#[inline]
#[must_use]
pub fn unpack8(w: u64, kind: &mut u8, class: &mut u8, used: &mut u16, place: &mut u64) -> u32 {
    unsafe { raw::ouriscado_unpack8(w, kind, class, used, place) }
}

/// What eight stored bytes say, as four numbers. Refuses 28 to 30.
#[inline]
#[must_use]
pub fn unpack8_bytes(buf: &[u8; 8], kind: &mut u8, class: &mut u8, used: &mut u16, place: &mut u64) -> u32 {
    unsafe { raw::ouriscado_unpack8_bytes(buf, kind, class, used, place) }
}

/// How many bytes a page's stream takes, and its last number, 0 where it has none. Refuses 4, 15 to 18, 20 to 23.
#[inline]
#[must_use]
pub fn sh_page_stream_tail(page: &[u8], taken: &mut usize, last: &mut u64) -> u32 {
    unsafe { raw::ouriscado_sh_page_stream_tail(page.as_ptr(), page.len(), taken, last) }
}

/// The last number of a page, 0 where it has none. Refuses 4, 15 to 18, 20 to 23.
#[inline]
#[must_use]
pub fn sh_page_last_fk(page: &[u8], last: &mut u64) -> u32 {
    unsafe { raw::ouriscado_sh_page_last_fk(page.as_ptr(), page.len(), last) }
}

/// Reads the numbers of a page into the start of out, and tells how many, and how many of them are padded. Refuses 4, 15 to 18, 20 to 23,
/// 34.
#[inline]
#[must_use]
pub fn sh_page_entries_into(page: &[u8], out: &mut [u64], count: &mut usize, padded: &mut usize) -> u32 {
    unsafe { raw::ouriscado_sh_page_entries_into(page.as_ptr(), page.len(), out.as_mut_ptr(), out.len(), count, padded) }
}

/// Reads the numbers of a page into the start of out, and tells how many, the next page's offset, 0 where the page is LAST, and how many of
/// the numbers are padded. Refuses 4, 15 to 18, 20 to 23, 34.
#[inline]
#[must_use]
pub fn sh_page_decode_slice_into(page: &[u8], out: &mut [u64], count: &mut usize, next: &mut u64, padded: &mut usize) -> u32 {
    unsafe { raw::ouriscado_sh_page_decode_slice_into(page.as_ptr(), page.len(), out.as_mut_ptr(), out.len(), count, next, padded) }
}

/// Appends a number to a page, and tells whether it was: it isn't where the page is full. Refuses 4, 12, 13, 15 to 18, 20 to 23, 32.
#[inline]
#[must_use]
pub fn sh_page_try_append(page: &mut [u8], fk: u64, appended: &mut bool) -> u32 {
    unsafe { raw::ouriscado_sh_page_try_append(page.as_mut_ptr(), page.len(), fk, appended) }
}

/// Writes the stream of a rising list to a page whose version is set, with its count, and tells its length. Refuses 4, 10, 12, 13, 32, 33.
#[inline]
#[must_use]
pub fn sh_page_write_stream(page: &mut [u8], fks: &[u64], len: &mut usize) -> u32 {
    unsafe { raw::ouriscado_sh_page_write_stream(page.as_mut_ptr(), page.len(), fks.as_ptr(), fks.len(), len) }
}

/// What a page's link says: whether the page is LAST, and the offset of the page that it names. Refuses 4.
#[inline]
#[must_use]
pub fn sh_page_read_packed(page: &[u8], last: &mut bool, off: &mut u64) -> u32 {
    unsafe { raw::ouriscado_sh_page_read_packed(page.as_ptr(), page.len(), last, off) }
}

/// Whether a page is LAST. Refuses 4.
#[inline]
#[must_use]
pub fn sh_page_is_last(page: &[u8], last: &mut bool) -> u32 {
    unsafe { raw::ouriscado_sh_page_is_last(page.as_ptr(), page.len(), last) }
}

/// The first page's offset, of a page with LAST. Refuses 4, 7.
#[inline]
#[must_use]
pub fn sh_page_first_off(page: &[u8], off: &mut u64) -> u32 {
    unsafe { raw::ouriscado_sh_page_first_off(page.as_ptr(), page.len(), off) }
}

/// The next page's offset, 0 where the page is LAST. Refuses 4.
#[inline]
#[must_use]
pub fn sh_page_next(page: &[u8], off: &mut u64) -> u32 {
    unsafe { raw::ouriscado_sh_page_next(page.as_ptr(), page.len(), off) }
}

/// Writes a page's link: LAST or not, and the offset of the page that it names. Refuses 4 to 6.
#[inline]
#[must_use]
pub fn sh_page_write_packed(page: &mut [u8], last: bool, off: u64) -> u32 {
    unsafe { raw::ouriscado_sh_page_write_packed(page.as_mut_ptr(), page.len(), last, off) }
}

/// Makes a page LAST, with the first page's offset. Refuses 4 to 6.
#[inline]
#[must_use]
pub fn sh_page_set_last(page: &mut [u8], off: u64) -> u32 {
    unsafe { raw::ouriscado_sh_page_set_last(page.as_mut_ptr(), page.len(), off) }
}

/// Gives a page a next page, without LAST. Refuses 4 to 6.
#[inline]
#[must_use]
pub fn sh_page_set_next(page: &mut [u8], off: u64) -> u32 {
    unsafe { raw::ouriscado_sh_page_set_next(page.as_mut_ptr(), page.len(), off) }
}

/// Where a page's stream starts. Refuses 4.
#[inline]
#[must_use]
pub fn sh_page_stream_off(page: &[u8], off: &mut usize) -> u32 {
    unsafe { raw::ouriscado_sh_page_stream_off(page.as_ptr(), page.len(), off) }
}

/// How many bytes a page's stream may take. Refuses 4.
#[inline]
#[must_use]
pub fn sh_page_stream_cap(page: &[u8], cap: &mut usize) -> u32 {
    unsafe { raw::ouriscado_sh_page_stream_cap(page.as_ptr(), page.len(), cap) }
}

/// The extent that a page names, its base and how many pages it has: 0 and 0 outside version 2. Refuses 4, 8, 9.
#[inline]
#[must_use]
pub fn sh_page_extent(page: &[u8], base: &mut u64, n: &mut u32) -> u32 {
    unsafe { raw::ouriscado_sh_page_extent(page.as_ptr(), page.len(), base, n) }
}

/// Makes a page name an extent, in version 2. Refuses 4, 8, 9.
#[inline]
#[must_use]
pub fn sh_page_set_extent(page: &mut [u8], base: u64, n: u32) -> u32 {
    unsafe { raw::ouriscado_sh_page_set_extent(page.as_mut_ptr(), page.len(), base, n) }
}

/// A page's creates, 0 outside version 2. Refuses 4.
#[inline]
#[must_use]
pub fn sh_page_extent_creates(page: &[u8], n: &mut u32) -> u32 {
    unsafe { raw::ouriscado_sh_page_extent_creates(page.as_ptr(), page.len(), n) }
}

/// Writes a page's creates, in version 2 only. Refuses 4.
#[inline]
#[must_use]
pub fn sh_page_set_extent_creates(page: &mut [u8], n: u32) -> u32 {
    unsafe { raw::ouriscado_sh_page_set_extent_creates(page.as_mut_ptr(), page.len(), n) }
}

/// How many numbers a page has. Refuses 4, 15.
#[inline]
#[must_use]
pub fn sh_page_n_fks(page: &[u8], n: &mut usize) -> u32 {
    unsafe { raw::ouriscado_sh_page_n_fks(page.as_ptr(), page.len(), n) }
}

/// Writes a page's count. Refuses 4.
#[inline]
#[must_use]
pub fn sh_page_set_n_fks(page: &mut [u8], n: u16) -> u32 {
    unsafe { raw::ouriscado_sh_page_set_n_fks(page.as_mut_ptr(), page.len(), n) }
}

/// Passes a page that can be read. Refuses 4, 15, 16.
#[inline]
#[must_use]
pub fn sh_page_require_delta(page: &[u8]) -> u32 {
    unsafe { raw::ouriscado_sh_page_require_delta(page.as_ptr(), page.len()) }
}

/// Makes a page empty: version 1, LAST with first offset 0, every other byte 0. Refuses 4.
#[inline]
#[must_use]
pub fn sh_page_init_empty(page: &mut [u8]) -> u32 {
    unsafe { raw::ouriscado_sh_page_init_empty(page.as_mut_ptr(), page.len()) }
}

/// Makes a page of version 1 of a rising list, with a next page, or LAST with first offset 0 where next is 0. Refuses 4 to 6, 10, 12, 13,
/// 32, 33.
#[inline]
#[must_use]
pub fn sh_page_pack_fks(page: &mut [u8], fks: &[u64], next: u64) -> u32 {
    unsafe { raw::ouriscado_sh_page_pack_fks(page.as_mut_ptr(), page.len(), fks.as_ptr(), fks.len(), next) }
}

/// Makes a page of version 2 of a rising list, which names an extent, with a next page, or LAST with the extent's base where next is 0.
/// Refuses 4 to 6, 8 to 10, 12, 13, 32, 33.
#[inline]
#[must_use]
pub fn sh_page_pack_extent_last_fks(page: &mut [u8], fks: &[u64], base: u64, n: u32, next: u64) -> u32 {
    unsafe { raw::ouriscado_sh_page_pack_extent_last_fks(page.as_mut_ptr(), page.len(), fks.as_ptr(), fks.len(), base, n, next) }
}

/// How many numbers a slab of a class has slots for, or 0 where that passes 32 bits.
#[inline]
#[must_use]
pub fn slab_cap(class: u8) -> u32 {
    unsafe { raw::ouriscado_slab_cap(class) }
}

/// How many bytes a block of a class has, or 0 where that passes 64 bits.
#[inline]
#[must_use]
pub fn slab_bytes(class: u8) -> u64 {
    unsafe { raw::ouriscado_slab_bytes(class) }
}

/// The offset from which on lists stand in a file, whatever the length of the file's own header.
#[inline]
#[must_use]
pub fn payload_start(file_header_len: usize) -> u64 {
    unsafe { raw::ouriscado_payload_start(file_header_len) }
}

/// Writes the payload of a rising list to the start of out, and tells its length. Refuses 10 to 13, 32, 33.
#[inline]
#[must_use]
pub fn encode_slab_payload_into(out: &mut [u8], fks: &[u64], len: &mut usize) -> u32 {
    unsafe { raw::ouriscado_encode_slab_payload_into(out.as_mut_ptr(), out.len(), fks.as_ptr(), fks.len(), len) }
}

/// Reads the payload at the start of buf into the start of out, and tells how many numbers it has, how many bytes it takes and how many of
/// the numbers are padded. Refuses 11, 17, 18, 20 to 23, 34.
#[inline]
#[must_use]
pub fn decode_slab_payload_into(buf: &[u8], out: &mut [u64], used: &mut usize, len: &mut usize, padded: &mut usize) -> u32 {
    unsafe { raw::ouriscado_decode_slab_payload_into(buf.as_ptr(), buf.len(), out.as_mut_ptr(), out.len(), used, len, padded) }
}

/// Writes the stream of a rising list to the start of out, and tells its length. Refuses 12, 13, 32, 33.
#[inline]
#[must_use]
pub fn encode_fk_delta_stream_into(out: &mut [u8], fks: &[u64], len: &mut usize) -> u32 {
    unsafe { raw::ouriscado_encode_fk_delta_stream_into(out.as_mut_ptr(), out.len(), fks.as_ptr(), fks.len(), len) }
}

/// Reads a stream of n numbers at the start of buf into the start of out, and tells how many bytes it takes and how many of the numbers are
/// padded: stored in a longer form than the shortest. Refuses 17, 18, 20 to 23, 34.
#[inline]
#[must_use]
pub fn decode_fk_delta_stream_into(buf: &[u8], n: usize, out: &mut [u64], taken: &mut usize, padded: &mut usize) -> u32 {
    unsafe { raw::ouriscado_decode_fk_delta_stream_into(buf.as_ptr(), buf.len(), n, out.as_mut_ptr(), out.len(), taken, padded) }
}

/// The length of the shortest form of n, in bytes.
#[inline]
#[must_use]
pub fn uleb128_len(n: u64) -> usize {
    unsafe { raw::ouriscado_uleb128_len(n) }
}

/// Reads the number at the start of buf: its value, the length of its form, and whether that is the shortest form of the value. Refuses 17,
/// 18.
#[inline]
#[must_use]
pub fn read_uleb128(buf: &[u8], value: &mut u64, len: &mut usize, shortest: &mut bool) -> u32 {
    unsafe { raw::ouriscado_read_uleb128(buf.as_ptr(), buf.len(), value, len, shortest) }
}

/// Writes the shortest form of n to the start of dst, and tells its length. Refuses 33.
#[inline]
#[must_use]
pub fn write_uleb128_into(dst: &mut [u8], n: u64, len: &mut usize) -> u32 {
    unsafe { raw::ouriscado_write_uleb128_into(dst.as_mut_ptr(), dst.len(), n, len) }
}
