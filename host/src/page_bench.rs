//! The speed of functions on pages.
use crate::bench::{case, seen, Case, BATCH};
use crate::inputs::rising;
use crate::rng::Rng;
use oracle::scripthash_pages::{self as pages, SH_PAGE_SIZE};
use oracle::{page_boundary as boundary, scripthash_slabs as slabs, Fk};
use ouriscado::sys;

/// A page.
type Page = [u8; SH_PAGE_SIZE];
/// A page without numbers.
const EMPTY: Page = [0; SH_PAGE_SIZE];

/// Lists whose streams fill a page, with differences whose forms have one byte, two, or any length to five.
fn lists() -> Vec<(&'static str, Vec<u64>)> {
    let mut rng = Rng(4096);
    let mut of = |len: usize, difference: &mut dyn FnMut(&mut Rng) -> u64| rising(&mut rng, len, difference);
    let mut out = vec![
        ("one-byte", of(4088, &mut |r| 1 + r.below(127))),
        ("two-byte", of(2044, &mut |r| 128 + r.below(16_000))),
        ("mixed", of(4088, &mut |r| r.bits(30))),
    ];
    // As many of the mixed ones as a page takes.
    let mixed = &mut out[2].1;
    while pages::sh_page_pack_fks(&mut EMPTY.clone(), mixed, 0).is_err() {
        mixed.pop();
    }
    out
}

/// Pages filled by appends, from empty to full: the last append finds the page full.
fn filled(cases: &mut Vec<Case>, name: &str, list: &[u64]) {
    let list: Vec<u64> = list.iter().copied().chain([list[list.len() - 1] + (1 << 40)]).collect();
    let theirs = list.clone();
    cases.push(case(
        format!("fill a page by appends, {name} differences"),
        move || {
            let mut page = EMPTY;
            let mut appended = false;
            list.iter().for_each(|&fk| seen(sys::sh_page_try_append(&mut page, fk, &mut appended)));
            assert!(!appended);
        },
        move || {
            let mut page = EMPTY;
            let mut appended = false;
            theirs.iter().for_each(|&fk| appended = pages::sh_page_try_append(&mut page, Fk(fk)).unwrap());
            assert!(!appended);
        },
    ));
}

/// Full pages read, their last numbers found, and packed.
fn whole(cases: &mut Vec<Case>, name: &str, list: &[u64]) {
    let mut page = EMPTY;
    pages::sh_page_pack_fks(&mut page, list, 0).unwrap();
    let n = list.len();
    let (mut ours_to, mut theirs_to) = (vec![0u64; n], Vec::<Fk>::with_capacity(n));
    cases.push(case(
        format!("read a full page, {name} differences"),
        move || seen(sys::sh_page_entries_into(&page, &mut ours_to, &mut 0, &mut 0)),
        move || {
            theirs_to.clear();
            seen(pages::sh_page_entries_into(&page, &mut theirs_to));
        },
    ));
    cases.push(case(
        format!("last number of a full page, {name} differences"),
        move || seen(sys::sh_page_last_fk(&page, &mut 0)),
        move || seen(pages::sh_page_last_fk(&page)),
    ));
    let (ours, theirs, mut ours_page, mut theirs_page) = (list.to_vec(), list.to_vec(), EMPTY, EMPTY);
    cases.push(case(
        format!("pack a full page, {name} differences"),
        move || seen(sys::sh_page_pack_fks(&mut ours_page, &ours, 0)),
        move || seen(pages::sh_page_pack_fks(&mut theirs_page, &theirs, 0)),
    ));
    let (ours, theirs, mut ours_page, mut theirs_page) = (list.to_vec(), list.to_vec(), page, page);
    cases.push(case(
        format!("write a full page's stream, {name} differences"),
        move || seen(sys::sh_page_write_stream(&mut ours_page, &ours, &mut 0)),
        move || seen(pages::sh_page_write_stream(&mut theirs_page, &theirs)),
    ));
}

/// A side of a call on a page's fields, with a number to set.
type Field = fn(&mut Page, u64) -> u64;

/// A place for what a call hands out, apart from what its caller keeps on the stack: a load that covers both would wait for the store.
#[derive(Default)]
#[repr(align(64))]
struct Out<T>(T);

/// What a call on a page's fields hands out, in one number.
macro_rules! told {
    ($call:path, $page:expr $(, $told:ident: $kind:ty)*) => {{
        $(let mut $told = Out::<$kind>::default();)*
        let number = $call($page $(, &mut $told.0)*) as u64;
        number $(+ $told.0 as u64)*
    }};
}

/// The same behind their boundary.
macro_rules! told_theirs {
    ($call:path, $page:expr $(, $told:ident: $kind:ty)*) => {{
        $(let mut $told = Out::<$kind>::default();)*
        let number = unsafe { $call($page.as_ptr(), SH_PAGE_SIZE $(, &mut $told.0)*) } as u64;
        number $(+ $told.0 as u64)*
    }};
}

/// The fields of a page, each side behind the same kind of boundary.
const FIELDS: &[(&str, Field, Field)] = &[
    (
        "link of a page",
        |p, _| told!(sys::sh_page_read_packed, p, last: bool, off: u64),
        |p, _| told_theirs!(boundary::sh_page_read_packed, p, last: bool, off: u64),
    ),
    ("next of a page", |p, _| told!(sys::sh_page_next, p, off: u64), |p, _| told_theirs!(boundary::sh_page_next, p, off: u64)),
    (
        "extent of a page",
        |p, _| told!(sys::sh_page_extent, p, base: u64, n: u32),
        |p, _| told_theirs!(boundary::sh_page_extent, p, base: u64, n: u32),
    ),
    (
        "creates of a page",
        |p, _| told!(sys::sh_page_extent_creates, p, n: u32),
        |p, _| told_theirs!(boundary::sh_page_extent_creates, p, n: u32),
    ),
    ("count of a page", |p, _| told!(sys::sh_page_n_fks, p, n: usize), |p, _| told_theirs!(boundary::sh_page_n_fks, p, n: usize)),
    ("test of a page", |p, _| told!(sys::sh_page_require_delta, p), |p, _| told_theirs!(boundary::sh_page_require_delta, p)),
    (
        "set the link of a page",
        |p, n| sys::sh_page_write_packed(p, n % 2 == 0, 4096 * n) as u64,
        |p, n| unsafe { boundary::sh_page_write_packed(p.as_mut_ptr(), SH_PAGE_SIZE, n % 2 == 0, 4096 * n) as u64 },
    ),
    (
        "set the extent of a page",
        |p, n| sys::sh_page_set_extent(p, 4096 * n, n as u32) as u64,
        |p, n| unsafe { boundary::sh_page_set_extent(p.as_mut_ptr(), SH_PAGE_SIZE, 4096 * n, n as u32) as u64 },
    ),
    (
        "set the creates of a page",
        |p, n| sys::sh_page_set_extent_creates(p, n as u32) as u64,
        |p, n| unsafe { boundary::sh_page_set_extent_creates(p.as_mut_ptr(), SH_PAGE_SIZE, n as u32) as u64 },
    ),
    (
        "set the count of a page",
        |p, n| sys::sh_page_set_n_fks(p, n as u16) as u64,
        |p, n| unsafe { boundary::sh_page_set_n_fks(p.as_mut_ptr(), SH_PAGE_SIZE, n as u16) as u64 },
    ),
    (
        "make a page empty",
        |p, _| sys::sh_page_init_empty(p) as u64,
        |p, _| unsafe { boundary::sh_page_init_empty(p.as_mut_ptr(), SH_PAGE_SIZE) as u64 },
    ),
];

/// Fields of a page of version 2, whose numbers change.
fn fields(cases: &mut Vec<Case>) {
    let mut page = EMPTY;
    pages::sh_page_pack_extent_last_fks(&mut page, &[5, 300, 301], 8192, 3, 4096).unwrap();
    for &(name, ours, theirs) in FIELDS {
        let all = |page: &mut Page, side: Field| (0..BATCH as u64).for_each(|k| seen(side(page, 1 + k % 1000)));
        let (mut ours_page, mut theirs_page) = (page, page);
        cases.push(case(name.into(), move || all(&mut ours_page, ours), move || all(&mut theirs_page, theirs)));
    }
}

/// Lists as a book holds them: a first number from 2^20 to 2^40, and differences of a kind. No two are alike, so that no branch is learnt.
fn like_a_book(lists: usize, len: usize, difference: fn(&mut Rng) -> u64) -> Vec<Vec<u64>> {
    let mut rng = Rng(lists as u64 + len as u64);
    (0..lists)
        .map(|_| {
            let mut first = Some((1 << 20) + rng.bits(40));
            rising(&mut rng, len, &mut |r| first.take().unwrap_or_else(|| difference(r)))
        })
        .collect()
}

/// As much of a list as a page takes.
fn fitted(mut list: Vec<u64>) -> Vec<u64> {
    while pages::sh_page_pack_fks(&mut EMPTY.clone(), &list, 0).is_err() {
        list.pop();
    }
    list
}

/// The kinds of differences in a book, and the numbers that fill a page with room to spare.
const KINDS: &[(&str, usize, fn(&mut Rng) -> u64)] = &[
    ("one-byte", 4088, |r| 1 + r.below(127)),
    ("two-byte", 2044, |r| 128 + r.below(16_000)),
    ("up to 300", 4088, |r| 1 + r.below(300)),
    ("up to 2^20", 2044, |r| 1 + r.below(1 << 20)),
];

/// Pages with as many numbers as slabs have, and full ones: last number, all numbers, one number more.
fn pages_of_a_book(cases: &mut Vec<Case>, name: &str, lists: &[Vec<u64>]) {
    let packed = |list: &Vec<u64>| {
        let mut page = EMPTY;
        pages::sh_page_pack_fks(&mut page, list, 0).unwrap();
        (page, list.len() as u16, list[list.len() - 1] + 5)
    };
    let ours: Vec<(Page, u16, u64)> = lists.iter().map(packed).collect();
    let theirs = ours.clone();
    cases.push(case(
        format!("last number of pages of {name}"),
        move || ours.iter().for_each(|(p, _, _)| seen(sys::sh_page_last_fk(p, &mut 0))),
        move || theirs.iter().for_each(|(p, _, _)| seen(pages::sh_page_last_fk(p))),
    ));
    let ours: Vec<(Page, u16, u64)> = lists.iter().map(packed).collect();
    let (theirs, mut ours_to, mut theirs_to) = (ours.clone(), vec![0u64; 4096], Vec::<Fk>::with_capacity(4096));
    cases.push(case(
        format!("read pages of {name}"),
        move || ours.iter().for_each(|(p, _, _)| seen(sys::sh_page_entries_into(p, &mut ours_to, &mut 0, &mut 0))),
        move || {
            theirs.iter().for_each(|(p, _, _)| {
                theirs_to.clear();
                seen(pages::sh_page_entries_into(p, &mut theirs_to));
            })
        },
    ));
    // The count is set back after each append; what lies behind the stream doesn't matter.
    let mut ours: Vec<(Page, u16, u64)> = lists.iter().map(packed).collect();
    let mut theirs = ours.clone();
    let set_back = |page: &mut Page, n: u16| page[1..3].copy_from_slice(&n.to_le_bytes());
    cases.push(case(
        format!("append to pages of {name}"),
        move || {
            ours.iter_mut().for_each(|(p, n, fk)| {
                seen(sys::sh_page_try_append(p, *fk, &mut false));
                set_back(p, *n);
            })
        },
        move || {
            theirs.iter_mut().for_each(|(p, n, fk)| {
                seen(pages::sh_page_try_append(p, Fk(*fk)));
                set_back(p, *n);
            })
        },
    ));
}

/// Slabs of a book decoded.
fn slabs_of_a_book(cases: &mut Vec<Case>, name: &str, lists: &[Vec<u64>]) {
    let packed = |list: &Vec<u64>| {
        let mut bytes = vec![0u8; 2048];
        let mut len = 0;
        assert_eq!(sys::encode_slab_payload_into(&mut bytes, list, &mut len), 0);
        bytes.truncate(len);
        bytes
    };
    let ours: Vec<Vec<u8>> = lists.iter().map(packed).collect();
    let (theirs, mut ours_to, mut theirs_to) = (ours.clone(), vec![0u64; 256], Vec::<Fk>::with_capacity(256));
    cases.push(case(
        format!("decode slabs of {name}"),
        move || ours.iter().for_each(|b| seen(sys::decode_slab_payload_into(b, &mut ours_to, &mut 0, &mut 0, &mut 0))),
        move || {
            theirs.iter().for_each(|b| {
                theirs_to.clear();
                seen(slabs::decode_slab_payload_into(b, &mut theirs_to));
            })
        },
    ));
}

/// Cases like a book's.
fn book(cases: &mut Vec<Case>) {
    for &(kind, most, difference) in KINDS {
        for len in [6, 30, 119, 256] {
            let lists = like_a_book(512, len, difference);
            pages_of_a_book(cases, &format!("{len}, {kind} differences, as in a book"), &lists);
            slabs_of_a_book(cases, &format!("{len}, {kind} differences, as in a book"), &lists);
        }
        let lists: Vec<Vec<u64>> = like_a_book(32, most, difference).into_iter().map(fitted).collect();
        pages_of_a_book(cases, &format!("all they hold, {kind} differences, as in a book"), &lists);
    }
}

/// Every case on pages.
pub fn cases(cases: &mut Vec<Case>) {
    for (name, list) in lists() {
        filled(cases, name, &list);
        whole(cases, name, &list);
    }
    fields(cases);
    book(cases);
}
