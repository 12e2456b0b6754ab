//! Calls of ours on slices of 2^32 elements and more, as far as they are cheap. Most of such a slice is memory that may be read and not
//! written; where a call is refused by the length alone, the slice is memory that can't be touched at all.
use crate::book_sys as book;
use crate::compare::{Found, Smallest};
use crate::errors::{of_pack, of_store, Side};
use crate::fault::{during, Saying};
use crate::forms::{is_shortest, padded, padded_in_page};
use crate::lent::{Area, Placing, NONE, PAGE, READ, READ_WRITE};
use crate::second_book::desks::WORDS;
use crate::second_book::MOST_BODY;
use oracle::error::StoreError;
use oracle::file::TableFile;
use oracle::{compact, free_lists, scripthash_pages as pages, scripthash_slabs as slabs, Fk};
use ouriscado::sys::raw;
use std::cell::Cell;

/// How many elements there are.
const COUNT: usize = 1 << 32;
/// What a number that goes out holds before a call.
const BEFORE: u64 = 0xa5a5_a5a5_a5a5_a5a5;

/// A slice of COUNT elements and some more, of which the first bytes may be written, and those from COUNT on.
struct Far<T> {
    area: Area,
    first: *mut T,
    len: usize,
}

/// Bytes at the start of a far slice that may be written.
const WINDOW: usize = 1 << 16;

impl<T: Copy> Far<T> {
    fn new(more: usize) -> Far<T> {
        let far = Far::with_access(more, READ);
        let (start, end) = (COUNT * size_of::<T>() - PAGE, (COUNT + more) * size_of::<T>());
        far.area.allow(0, WINDOW, READ_WRITE);
        far.area.allow(start, end.next_multiple_of(PAGE) - start, READ_WRITE);
        far
    }

    /// One that can't be touched.
    fn untouchable(more: usize) -> Far<T> {
        Far::with_access(more, NONE)
    }

    fn with_access(more: usize, access: i32) -> Far<T> {
        let area = Area::with_access((COUNT + more) * size_of::<T>(), access);
        let first = area.place(COUNT + more, Placing::Start);
        Far { area, first, len: COUNT + more }
    }

    #[allow(clippy::mut_from_ref)]
    fn slice(&self) -> &mut [T] {
        self.area.slice(self.len, Placing::Start)
    }

    /// What may have been written.
    fn windows(&self) -> Vec<T> {
        let (all, last) = (self.slice(), COUNT - PAGE / size_of::<T>());
        [&all[..WINDOW / size_of::<T>()], &all[last..]].concat()
    }
}

/// A call by its name.
struct Named(&'static str);

impl Saying for Named {
    fn say(&self, wrong: &str) -> String {
        format!("huge, round 0: {} {wrong}", self.0)
    }
}

/// What the calls found.
struct Judge<'a>(&'a mut Found);

impl Judge<'_> {
    /// Compares an answer of ours, its refusal and what it hands out, and whether both sides left the same.
    fn same(&mut self, name: &'static str, ours: (u32, &[u64]), theirs: Result<Vec<u64>, u32>, left: bool) {
        let wanted = match &theirs {
            Ok(told) => (0, told.clone()),
            Err(number) => (*number, vec![0; ours.1.len()]),
        };
        self.0.inputs += 1;
        self.0.calls += 1;
        if (ours.0, ours.1) != (wanted.0, &wanted.1[..]) || !left {
            let what =
                format!("{name} answers {} and {:x?} in place of {} and {:x?}, left alike {left}", ours.0, ours.1, wanted.0, wanted.1);
            self.0.differs(Smallest { size: (COUNT, 0), what, round: 0, input: "a slice of 2^32 elements".into() });
        }
    }
}

fn stored<T>(answer: Result<T, StoreError>, told: impl FnOnce(T) -> Vec<u64>) -> Result<Vec<u64>, u32> {
    answer.map(told).map_err(|e| of_store(e, Side::Stored))
}

fn offered(answer: Result<usize, StoreError>) -> Result<Vec<u64>, u32> {
    answer.map(|n| vec![n as u64]).map_err(|e| of_store(e, Side::Offered))
}

/// One number, read from far bytes and written to them.
fn numbers(judge: &mut Judge) {
    for bytes in [&[0x80, 0x01][..], &[0x80; 40], &[0xff; 9], &[5], &[0x85, 0x80, 0]] {
        let buf = Far::<u8>::new(0);
        buf.slice()[..bytes.len()].copy_from_slice(bytes);
        let theirs = compact::read_uleb128(buf.slice()).map(|(v, l)| vec![v, l as u64, is_shortest(v, l) as u64]).map_err(of_pack);
        for before in [false, true] {
            let (mut value, mut len, mut shortest) = (BEFORE, BEFORE as usize, before);
            let ours = during(&Named("read_uleb128"), || unsafe {
                raw::ouriscado_read_uleb128(buf.first, COUNT, &mut value, &mut len, &mut shortest)
            });
            judge.same("read_uleb128", (ours, &[value, len as u64, shortest as u64]), theirs.clone(), true);
        }
    }
    for n in [0, 300, u64::MAX] {
        let (a, b) = (Far::<u8>::new(0), Far::<u8>::new(0));
        let mut len = BEFORE as usize;
        let ours = during(&Named("write_uleb128_into"), || unsafe { raw::ouriscado_write_uleb128_into(a.first, COUNT, n, &mut len) });
        let theirs = compact::write_uleb128_into(b.slice(), n).map(|l| vec![l as u64]).map_err(of_pack);
        judge.same("write_uleb128_into", (ours, &[len as u64]), theirs, a.windows() == b.windows());
    }
}

/// The list that is written to far streams and slabs, and read from them.
const FKS: [u64; 3] = [5, 300, 301];

/// Streams and slabs written to far bytes, and of far lists.
fn streams_written(judge: &mut Judge) {
    let (a, b, mut len) = (Far::<u8>::new(0), Far::<u8>::new(0), BEFORE as usize);
    let ours = during(&Named("encode_fk_delta_stream_into"), || unsafe {
        raw::ouriscado_encode_fk_delta_stream_into(a.first, COUNT, FKS.as_ptr(), 3, &mut len)
    });
    let theirs = offered(slabs::encode_fk_delta_stream_into(b.slice(), &FKS));
    judge.same("encode_fk_delta_stream_into", (ours, &[len as u64]), theirs, a.windows() == b.windows());
    let ours = during(&Named("encode_slab_payload_into"), || unsafe {
        raw::ouriscado_encode_slab_payload_into(a.first, COUNT, FKS.as_ptr(), 3, &mut len)
    });
    let theirs = offered(slabs::encode_slab_payload_into(b.slice(), &FKS));
    judge.same("encode_slab_payload_into", (ours, &[len as u64]), theirs, a.windows() == b.windows());
    let (list, far) = (Far::<u64>::untouchable(3), Far::<u8>::untouchable(0));
    len = BEFORE as usize;
    let ours = during(&Named("encode_slab_payload_into"), || unsafe {
        raw::ouriscado_encode_slab_payload_into(far.first, COUNT, list.first, list.len, &mut len)
    });
    let theirs = offered(slabs::encode_slab_payload_into(far.slice(), list.slice()));
    judge.same("encode_slab_payload_into", (ours, &[len as u64]), theirs, true);
}

/// Streams and slabs read from far bytes into far lists, in the shortest forms and in padded ones.
fn streams_read(judge: &mut Judge) {
    for slab in [&[3, 0, 5, 0xa7, 2, 1][..], &[3, 0, 0x85, 0, 0xa7, 2, 0x81, 0x80, 0]] {
        let (buf, mut read) = (Far::<u8>::new(0), Vec::new());
        buf.slice()[..slab.len()].copy_from_slice(slab);
        let (len, apart) = (slab.len() as u64, padded(&slab[2..], 3));
        let theirs = stored(slabs::decode_slab_payload_into(buf.slice(), &mut read), |()| vec![3, len, apart]);
        let left = |out: &Far<u64>| out.slice()[..3] == FKS && out.windows()[3..].iter().all(|n| *n == 0) && read == FKS.map(Fk);
        let (out, [mut used, mut taken, mut padded]) = (Far::<u64>::new(0), [BEFORE as usize; 3]);
        let ours = during(&Named("decode_slab_payload_into"), || unsafe {
            raw::ouriscado_decode_slab_payload_into(buf.first, COUNT, out.first, COUNT, &mut used, &mut taken, &mut padded)
        });
        judge.same("decode_slab_payload_into", (ours, &[used as u64, taken as u64, padded as u64]), theirs, left(&out));
        let (out, [mut taken, mut padded]) = (Far::<u64>::new(0), [BEFORE as usize; 2]);
        let ours = during(&Named("decode_fk_delta_stream_into"), || unsafe {
            raw::ouriscado_decode_fk_delta_stream_into(buf.first.add(2), COUNT - 2, 3, out.first, COUNT, &mut taken, &mut padded)
        });
        judge.same("decode_fk_delta_stream_into", (ours, &[taken as u64, padded as u64]), Ok(vec![len - 2, apart]), left(&out));
    }
}

/// Buffers of 2^32 bytes and of a page more aren't pages, by their length alone.
fn pages_by_length(judge: &mut Judge) {
    type Call = (&'static str, fn(*mut u8, usize, &mut [u64; 2]) -> u32);
    let calls: [Call; 14] = [
        ("sh_page_is_last", |p, n, o| unsafe { raw::ouriscado_sh_page_is_last(p, n, flag(o)) }),
        ("sh_page_next", |p, n, o| unsafe { raw::ouriscado_sh_page_next(p, n, &mut o[0]) }),
        ("sh_page_set_last", |p, n, _| unsafe { raw::ouriscado_sh_page_set_last(p, n, 4096) }),
        ("sh_page_set_next", |p, n, _| unsafe { raw::ouriscado_sh_page_set_next(p, n, 4096) }),
        ("sh_page_set_extent", |p, n, _| unsafe { raw::ouriscado_sh_page_set_extent(p, n, 4096, 1) }),
        ("sh_page_set_extent_creates", |p, n, _| unsafe { raw::ouriscado_sh_page_set_extent_creates(p, n, 1) }),
        ("sh_page_set_n_fks", |p, n, _| unsafe { raw::ouriscado_sh_page_set_n_fks(p, n, 1) }),
        ("sh_page_require_delta", |p, n, _| unsafe { raw::ouriscado_sh_page_require_delta(p, n) }),
        ("sh_page_init_empty", |p, n, _| unsafe { raw::ouriscado_sh_page_init_empty(p, n) }),
        ("sh_page_last_fk", |p, n, o| unsafe { raw::ouriscado_sh_page_last_fk(p, n, &mut o[0]) }),
        ("sh_page_try_append", |p, n, o| unsafe { raw::ouriscado_sh_page_try_append(p, n, 5, flag(o)) }),
        ("sh_page_pack_fks", |p, n, _| unsafe { raw::ouriscado_sh_page_pack_fks(p, n, [5].as_ptr(), 1, 0) }),
        ("sh_page_pack_extent_last_fks", |p, n, _| unsafe {
            raw::ouriscado_sh_page_pack_extent_last_fks(p, n, [5].as_ptr(), 1, 4096, 1, 0)
        }),
        ("sh_page_stream_off", |p, n, o| {
            let mut off = BEFORE as usize;
            let number = unsafe { raw::ouriscado_sh_page_stream_off(p, n, &mut off) };
            o[0] = off as u64;
            number
        }),
    ];
    for more in [0, PAGE] {
        let page = Far::<u8>::untouchable(more);
        for (name, call) in calls {
            let mut out = [0xa5a5_a5a5_a5a5_a501, BEFORE];
            let before = out;
            let ours = during(&Named(name), || call(page.first, page.len, &mut out));
            // A flag is one byte of its number, and some calls hand out nothing.
            let told = if out == before || out[0] == before[0] & !0xff { 0 } else { out[0] };
            judge.same(name, (ours, &[told]), Err(4), out[1] == BEFORE);
        }
    }
}

/// The flag in the first byte of a number.
fn flag(out: &mut [u64; 2]) -> &mut bool {
    unsafe { &mut *out.as_mut_ptr().cast() }
}

/// Lists of 2^32 numbers are too many for a page, by their length alone; and a page is read into a list of so many.
fn pages_and_lists(judge: &mut Judge) {
    let list = Far::<u64>::untouchable(7);
    let mut page = [0u8; PAGE];
    let (at, mut len) = (page.as_mut_ptr(), BEFORE as usize);
    let ours =
        during(&Named("sh_page_write_stream"), || unsafe { raw::ouriscado_sh_page_write_stream(at, PAGE, list.first, list.len, &mut len) });
    judge.same("sh_page_write_stream", (ours, &[len as u64]), Err(10), page == [0; PAGE]);
    let at = page.as_mut_ptr();
    let ours = during(&Named("sh_page_pack_fks"), || unsafe { raw::ouriscado_sh_page_pack_fks(at, PAGE, list.first, list.len, 4096) });
    judge.same("sh_page_pack_fks", (ours, &[]), Err(10), page == [0; PAGE]);
    let at = page.as_mut_ptr();
    let ours = during(&Named("sh_page_pack_extent_last_fks"), || unsafe {
        raw::ouriscado_sh_page_pack_extent_last_fks(at, PAGE, list.first, list.len, 4096, 1, 0)
    });
    judge.same("sh_page_pack_extent_last_fks", (ours, &[]), Err(10), page == [0; PAGE]);
    pages::sh_page_pack_fks(&mut page, &FKS, 8192).unwrap();
    let (out, mut next, [mut count, mut padded]) = (Far::<u64>::new(0), BEFORE, [BEFORE as usize; 2]);
    let ours = during(&Named("sh_page_decode_slice_into"), || unsafe {
        raw::ouriscado_sh_page_decode_slice_into(page.as_ptr(), PAGE, out.first, COUNT, &mut count, &mut next, &mut padded)
    });
    let left = out.slice()[..3] == FKS && out.windows()[3..].iter().all(|n| *n == 0);
    let wanted = Ok(vec![3, 8192, padded_in_page(&page)]);
    judge.same("sh_page_decode_slice_into", (ours, &[count as u64, next, padded as u64]), wanted, left);
}

/// Ranges in lists of 2^32: a list is cut, and the last of so many ranges stays, as it fits.
fn cuts(judge: &mut Judge) {
    let (fks, out, mut parts) = ([5u64, 300, 301], Far::<[usize; 2]>::new(1), BEFORE as usize);
    let ours = during(&Named("sh_page_chunk_ranges"), || unsafe {
        raw::ouriscado_sh_page_chunk_ranges(fks.as_ptr(), 3, out.first, out.len, &mut parts)
    });
    judge.same("sh_page_chunk_ranges", (ours, &[parts as u64]), Ok(vec![1]), out.slice()[..2] == [[0, 3], [0, 0]]);
    out.slice()[COUNT - 1] = [1, 3];
    for (count, wanted) in [(COUNT, Ok(vec![COUNT as u64])), (COUNT + 2, Err(34))] {
        let before = out.windows();
        parts = BEFORE as usize;
        let ours = during(&Named("split_last_chunk_for_extent"), || unsafe {
            raw::ouriscado_split_last_chunk_for_extent(fks.as_ptr(), 3, out.first, out.len, count, &mut parts)
        });
        judge.same("split_last_chunk_for_extent", (ours, &[parts as u64]), wanted, out.windows() == before);
    }
}

/// Blocks behind the first 2^32 bytes of a body, and the last one that isn't quite within it.
fn free(judge: &mut Judge) {
    let (a, b) = (Far::<u8>::new(2 * PAGE), Far::<u8>::new(2 * PAGE));
    let end = a.len as u64;
    let (mut ours, mut theirs) = ([0u64; 9], [0u64; 25]);
    let file = TableFile(Cell::from_mut(b.slice()).as_slice_of_cells());
    for (class, off) in [(8, COUNT as u64), (0, COUNT as u64 + 16), (0, end - 16), (8, end - 4096), (0, end), (8, end), (1, end - 16)] {
        let number = during(&Named("push_free_head"), || unsafe { raw::ouriscado_push_free_head(a.first, a.len, &mut ours, class, off) });
        let fits = off + (16 << class) <= end;
        let wanted = if fits { stored(free_lists::push_free_head(&file, &mut theirs, class, off), |()| vec![]) } else { Err(35) };
        judge.same("push_free_head", (number, &[]), wanted, ours == theirs[..9] && a.windows() == b.windows());
    }
    for (from, to, fits) in [(COUNT as u64 + 4096, end - 16, true), (COUNT as u64, end + 16, false)] {
        let number = during(&Named("carve_gap_into_freelist"), || unsafe {
            raw::ouriscado_carve_gap_into_freelist(a.first, a.len, &mut ours, from, to)
        });
        let wanted = if fits { stored(free_lists::carve_gap_into_freelist(&file, &mut theirs, from, to), |()| vec![]) } else { Err(35) };
        judge.same("carve_gap_into_freelist", (number, &[]), wanted, ours == theirs[..9] && a.windows() == b.windows());
    }
    for (class, mark) in [(8, end), (8, COUNT as u64 + 4096), (8, COUNT as u64 + 4096), (0, end), (7, COUNT as u64), (9, end)] {
        let mut off = BEFORE;
        let fits = theirs.get(class as usize).is_none_or(|&head| head == 0 || head + (16 << class) <= mark);
        let number =
            during(&Named("pop_free_head"), || unsafe { raw::ouriscado_pop_free_head(a.first, a.len, &mut ours, class, mark, &mut off) });
        let wanted =
            if fits { stored(free_lists::pop_free_head(&file, &mut theirs, class), |off| vec![off.unwrap_or(0)]) } else { Err(35) };
        judge.same("pop_free_head", (number, &[off]), wanted, ours == theirs[..9] && a.windows() == b.windows());
    }
}

/// Books whose bodies or heads are beyond the limits, by their lengths alone.
fn books_by_length(judge: &mut Judge) {
    let Some(body) = Area::untouchable(2 * MOST_BODY + 8192) else {
        println!("huge: books by their lengths left out, since this machine refuses a range of 2^42 bytes");
        return;
    };
    let (heads, most, more) = (Far::<u64>::untouchable(1), MOST_BODY, MOST_BODY + COUNT);
    let lengths = [
        (most + 4096, 1),
        (more + 8192, 1),
        (2 * most, 1),
        (2 * most + 8192, 1),
        (8192, 65_537),
        (8192, COUNT),
        (8192, COUNT + 1),
        (most, 65_537),
        (more, COUNT + 1),
    ];
    for (b, h) in lengths {
        let (mut mark, mut free, mut counts, mut told) = (4096, [0; 9], NO_COUNTS, [BEFORE; 2]);
        let (at, words) = (body.place::<u8>(b, Placing::Start), heads.first);
        let desks = words.cast::<u8>();
        let ours = during(&Named("book_fresh"), || unsafe {
            book::ouriscado_book_fresh(at, b, words, h, &mut mark, &mut free, &mut counts, desks, h, &[0; 16], &[9; 16])
        });
        judge.same("book_fresh", (ours, &[]), Err(1), mark == 4096);
        let [pages, other] = &mut told;
        for (name, load) in LOADS {
            *pages = BEFORE;
            let ours =
                during(&Named(name), || unsafe { load(at, b, words, h, &mut mark, &mut free, &mut counts, desks, h, 0, words, 2, pages) });
            judge.same(name, (ours, &[*pages]), Err(1), mark == 4096);
        }
        let (mut kind, mut class, mut used, mut place) = (1, 1, 1, BEFORE);
        let ours = during(&Named("book_append"), || unsafe {
            let append = book::ouriscado_book_append;
            let (kind, class, used, place) = (&mut kind, &mut class, &mut used, &mut place);
            append(at, b, words, h, &mut mark, &mut free, &mut counts, desks, h, 0, 5, kind, class, used, place, other)
        });
        judge.same("book_append", (ours, &[kind as u64, class as u64, used as u64, place, *other]), Err(1), mark == 4096);
        let (ours, told, mark_left) = extend((at, b), (words, h), desks, words);
        judge.same("book_extend", (ours, &told), Err(1), mark_left == 4096);
        read_by_length(judge, (at, b), (words, h), mark);
        *pages = BEFORE;
        let ours = during(&Named("book_drop"), || unsafe {
            book::ouriscado_book_drop(at, b, words, h, &mut mark, &mut free, &mut counts, desks, h, 0, pages)
        });
        judge.same("book_drop", (ours, &[*pages]), Err(1), mark == 4096);
    }
}

/// The counts of a book without pages and limits.
const NO_COUNTS: book::Counts = [0; WORDS];

/// A load of the book's.
type Load = unsafe extern "C" fn(
    *mut u8,
    usize,
    *mut u64,
    usize,
    &mut u64,
    &mut book::Free,
    &mut book::Counts,
    *const u8,
    usize,
    u64,
    *const u64,
    usize,
    &mut u64,
) -> u32;
const LOADS: [(&str, Load); 2] = [("book_load", book::ouriscado_book_load), ("book_load_tight", book::ouriscado_book_load_tight)];

/// Extends key 0 of a book whose mark is 4,096 by 2^32 numbers: the refusal, what is handed out, and the mark that it leaves.
fn extend((body, b): (*mut u8, usize), (words, h): (*mut u64, usize), desks: *const u8, list: *const u64) -> (u32, [u64; 8], u64) {
    let (mut mark, mut free, mut counts) = (4096, [0; 9], NO_COUNTS);
    let [mut accepted, mut place, mut moves, mut rewritten] = [BEFORE; 4];
    let (mut refusal, mut kind, mut class, mut used) = (1, 1, 1, 1);
    let number = during(&Named("book_extend"), || unsafe {
        book::ouriscado_book_extend(
            body,
            b,
            words,
            h,
            &mut mark,
            &mut free,
            &mut counts,
            desks,
            h,
            0,
            list,
            COUNT,
            &mut accepted,
            &mut refusal,
            &mut kind,
            &mut class,
            &mut used,
            &mut place,
            &mut moves,
            &mut rewritten,
        )
    });
    (number, [accepted, refusal.into(), kind.into(), class.into(), used.into(), place, moves, rewritten], mark)
}

/// Reads of such a book into a list of 2^32 numbers.
fn read_by_length(judge: &mut Judge, (body, b): (*mut u8, usize), (words, h): (*mut u64, usize), mark: u64) {
    let [mut length, mut pages, mut padded] = [BEFORE; 3];
    let desks = words.cast::<u8>();
    let ours = during(&Named("book_read"), || unsafe {
        let read = book::ouriscado_book_read;
        read(body, b, words, h, mark, &NO_COUNTS, desks, h, 0, words, COUNT, &mut length, &mut pages, &mut padded)
    });
    judge.same("book_read", (ours, &[length, pages, padded]), Err(1), true);
    [length, pages, padded] = [BEFORE; 3];
    let ours = during(&Named("core_read"), || unsafe {
        book::ouriscado_core_read(body, b, words, h, mark, 0, words, COUNT, &mut length, &mut pages, &mut padded)
    });
    judge.same("core_read", (ours, &[length, pages, padded]), Err(1), true);
    length = BEFORE;
    let ours = during(&Named("book_length"), || unsafe {
        book::ouriscado_book_length(body, b, words, h, mark, &NO_COUNTS, desks, h, 0, &mut length)
    });
    judge.same("book_length", (ours, &[length]), Err(1), true);
    length = BEFORE;
    let ours = during(&Named("core_length"), || unsafe { book::ouriscado_core_length(body, b, words, h, mark, 0, &mut length) });
    judge.same("core_length", (ours, &[length]), Err(1), true);
}

/// A small book that is offered 2^32 numbers, one that is read into a list of so many, and one that is lent as many desks.
fn books_and_lists(judge: &mut Judge) {
    let (mut body, mut heads) = (vec![0u8; 8192], [0u64, 7]);
    let (mut mark, mut free, mut counts, desks) = (4096, [0; 9], NO_COUNTS, [0u8; 2]);
    let (list, out) = (Far::<u64>::untouchable(1), Far::<u64>::new(0));
    let (at, words, of) = (body.as_mut_ptr(), heads.as_mut_ptr(), desks.as_ptr());
    for (name, load) in LOADS {
        for (of, d, wanted) in [(of, 2, 10), (list.first.cast::<u8>().cast_const(), COUNT, 39)] {
            let mut pages = BEFORE;
            let ours = during(&Named(name), || unsafe {
                load(at, 8192, words, 2, &mut mark, &mut free, &mut counts, of, d, 0, list.first, list.len, &mut pages)
            });
            judge.same(name, (ours, &[pages]), Err(wanted), heads == [0, 7] && mark == 4096);
        }
    }
    let [mut length, mut pages, mut padded] = [BEFORE; 3];
    let ours = during(&Named("book_read"), || unsafe {
        let read = book::ouriscado_book_read;
        read(at, 8192, words, 2, mark, &counts, of, 2, 1, out.first, COUNT, &mut length, &mut pages, &mut padded)
    });
    judge.same("book_read", (ours, &[length, pages, padded]), Ok(vec![1, 0, 0]), out.slice()[..2] == [7, 0]);
    // Of so many numbers the fourth is 0.
    out.slice()[..3].copy_from_slice(&[5, 300, 301]);
    let (ours, told, mark) = extend((at, 8192), (words, 2), of, out.first);
    let left = mark == 4112 && body[4096..4102] == [3, 0, 5, 0xa7, 2, 1];
    judge.same("book_extend", (ours, &told), Ok(vec![3, 12, 2, 0, 3, 4096, 1, 1]), left);
}

/// Compares all of them.
pub fn compare(found: &mut Found) {
    let mut judge = Judge(found);
    for part in [numbers, streams_written, streams_read, pages_by_length, pages_and_lists, cuts, free, books_by_length, books_and_lists] {
        part(&mut judge);
    }
}

#[cfg(test)]
mod tests {
    use super::*;

    /// Books by their lengths, and with lists of 2^32 numbers and desks.
    #[test]
    fn books() {
        let mut found = Found::default();
        [books_by_length, books_and_lists].iter().for_each(|part| part(&mut Judge(&mut found)));
        assert!(found.differ == 0, "{}", found.smallest.map_or(String::new(), |s| s.what));
    }
}
