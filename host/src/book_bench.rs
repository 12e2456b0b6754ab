//! The speed of the book's calls, and of the core's: ours against the second book's, over the published functions, and of extends against our
//! own appends. A case begins with a book that the second book made, and each turn begins with a copy of it, which both sides make alike, or
//! leaves it as it was.
use crate::bench::{case, seen, Case};
use crate::book_sys as sys;
use crate::rng::Rng;
use crate::second_book::desks::{At, By, DESKS, NO_LIMITS};
use crate::second_book::space::State;
use crate::second_book::{Fit, SecondBook};
use std::ops::Range;

/// A book: body, head words, state; and the desk of each key. Ours has the state's parts as they are lent to it.
#[derive(Clone)]
struct Book {
    body: Vec<u8>,
    heads: Vec<u64>,
    state: State,
    counts: sys::Counts,
    desks: Vec<u8>,
}

/// The families of calls.
#[derive(Clone, Copy, PartialEq, Eq)]
enum Family {
    Book,
    Core,
}
const FAMILIES: [(Family, &str); 2] = [(Family::Book, "book"), (Family::Core, "core")];

impl Book {
    /// One without limits, whose keys are those of all desks.
    fn fresh(pages: usize, keys: usize) -> Book {
        let (mut state, mut heads) = (State::at(0), vec![0; keys]);
        let (body, desks): (Vec<u8>, Vec<u8>) = (vec![0; 4096 * pages], (0..keys).map(|key| (key % DESKS) as u8).collect());
        SecondBook::default().fresh(&body, &mut heads, &mut state, &desks, &NO_LIMITS).expect("a fresh book");
        Book { body, heads, state, counts: state.counts.words(), desks }
    }

    /// Becomes a copy of a book of the same lengths.
    fn copy(&mut self, from: &Book) {
        self.body.copy_from_slice(&from.body);
        self.heads.copy_from_slice(&from.heads);
        self.copy_state(from);
    }

    fn copy_state(&mut self, from: &Book) {
        (self.state, self.counts) = (from.state, from.counts);
    }

    fn load_theirs(&mut self, key: u64, fks: &[u64]) {
        let at = At { key, by: By::List(&self.desks) };
        SecondBook::default().load(&mut self.body, &mut self.heads, &mut self.state, at, fks, Fit::Tight).expect("a load");
        self.counts = self.state.counts.words();
    }
}

/// A call, with what it is about.
#[derive(Clone)]
enum Call {
    Load(u64, Vec<u64>, Fit),
    Append(u64, u64),
    Read(u64),
    Drop(u64),
    Extend(u64, Vec<u64>),
}

/// Makes a call of our book, and tells its refusal's number.
fn call_book(b: &mut Book, call: &Call, list: &mut [u64]) -> u32 {
    let (body, b_len, heads, h_len) = (b.body.as_mut_ptr(), b.body.len(), b.heads.as_mut_ptr(), b.heads.len());
    let (mark, free, counts, desks, d_len) = (&mut b.state.mark, &mut b.state.free, &mut b.counts, b.desks.as_ptr(), b.desks.len());
    let (mut a, mut c, mut d, mut kind, mut class, mut used) = (0, 0, 0, 0, 0, 0);
    let (out, room) = (list.as_mut_ptr(), list.len());
    let load = |fit| if fit == Fit::Spare { sys::ouriscado_book_load } else { sys::ouriscado_book_load_tight };
    let (append, read, drop) = (sys::ouriscado_book_append, sys::ouriscado_book_read, sys::ouriscado_book_drop);
    unsafe {
        match call {
            Call::Load(key, fks, fit) => {
                load(*fit)(body, b_len, heads, h_len, mark, free, counts, desks, d_len, *key, fks.as_ptr(), fks.len(), &mut a)
            }
            Call::Append(key, fk) => {
                let (kind, class, used) = (&mut kind, &mut class, &mut used);
                append(body, b_len, heads, h_len, mark, free, counts, desks, d_len, *key, *fk, kind, class, used, &mut a, &mut c)
            }
            Call::Read(key) => read(body, b_len, heads, h_len, *mark, counts, desks, d_len, *key, out, room, &mut a, &mut c, &mut d),
            Call::Drop(key) => drop(body, b_len, heads, h_len, mark, free, counts, desks, d_len, *key, &mut a),
            Call::Extend(key, fks) => {
                let (mut refusal, mut moves, (list, len)) = (0, 0, (fks.as_ptr(), fks.len()));
                let (refusal, kind, class, used) = (&mut refusal, &mut kind, &mut class, &mut used);
                sys::ouriscado_book_extend(
                    body, b_len, heads, h_len, mark, free, counts, desks, d_len, *key, list, len, &mut a, refusal, kind, class, used,
                    &mut c, &mut moves, &mut d,
                )
            }
        }
    }
}

/// Makes a call of our core, and tells its refusal's number.
fn call_core(b: &mut Book, call: &Call, list: &mut [u64]) -> u32 {
    let (body, b_len, heads, h_len) = (b.body.as_mut_ptr(), b.body.len(), b.heads.as_mut_ptr(), b.heads.len());
    let (mark, free, counts, desks) = (&mut b.state.mark, &mut b.state.free, &mut b.counts, &b.desks);
    let (mut a, mut c, mut d, mut kind, mut class, mut used) = (0, 0, 0, 0, 0, 0);
    let (out, room) = (list.as_mut_ptr(), list.len());
    let load = |fit| if fit == Fit::Spare { sys::ouriscado_core_load } else { sys::ouriscado_core_load_tight };
    let (append, read, drop) = (sys::ouriscado_core_append, sys::ouriscado_core_read, sys::ouriscado_core_drop);
    let desk = |key: &u64| desks[*key as usize].into();
    unsafe {
        match call {
            Call::Load(key, fks, fit) => {
                load(*fit)(body, b_len, heads, h_len, mark, free, counts, desk(key), *key, fks.as_ptr(), fks.len(), &mut a)
            }
            Call::Append(key, fk) => {
                let (kind, class, used) = (&mut kind, &mut class, &mut used);
                append(body, b_len, heads, h_len, mark, free, counts, desk(key), *key, *fk, kind, class, used, &mut a, &mut c)
            }
            Call::Read(key) => read(body, b_len, heads, h_len, *mark, *key, out, room, &mut a, &mut c, &mut d),
            Call::Drop(key) => drop(body, b_len, heads, h_len, mark, free, counts, desk(key), *key, &mut a),
            Call::Extend(key, fks) => {
                let (mut refusal, mut moves, (of, list, len)) = (0, 0, (desk(key), fks.as_ptr(), fks.len()));
                let (refusal, kind, class, used) = (&mut refusal, &mut kind, &mut class, &mut used);
                sys::ouriscado_core_extend(
                    body, b_len, heads, h_len, mark, free, counts, of, *key, list, len, &mut a, refusal, kind, class, used, &mut c,
                    &mut moves, &mut d,
                )
            }
        }
    }
}

/// Makes a call of ours.
fn call_ours(b: &mut Book, family: Family, call: &Call, list: &mut [u64]) -> u32 {
    match family {
        Family::Book => call_book(b, call, list),
        Family::Core => call_core(b, call, list),
    }
}

/// Makes a call of the second book, and tells its refusal's number.
fn call_theirs(second: &mut SecondBook, b: &mut Book, family: Family, call: &Call, list: &mut [u64]) -> u32 {
    let (Call::Load(key, ..) | Call::Append(key, _) | Call::Read(key) | Call::Drop(key) | Call::Extend(key, _)) = call;
    let desks = std::mem::take(&mut b.desks);
    let by = match family {
        Family::Book => By::List(&desks),
        Family::Core => By::Desk(desks[*key as usize].into()),
    };
    let at = At { key: *key, by };
    let refused = match call {
        Call::Load(_, fks, fit) => second.load(&mut b.body, &mut b.heads, &mut b.state, at, fks, *fit).map(seen),
        Call::Append(_, fk) => second.append(&mut b.body, &mut b.heads, &mut b.state, at, *fk).map(seen),
        Call::Read(_) => second.read(&b.body, &b.heads, &b.state, at, list).map(seen),
        Call::Drop(_) => second.drop(&mut b.body, &mut b.heads, &mut b.state, at).map(seen),
        Call::Extend(_, fks) => second.extend(&mut b.body, &mut b.heads, &mut b.state, at, fks).map(seen),
    };
    b.desks = desks;
    refused.err().map_or(0, |r| r.number())
}

/// Both sides with some calls made by a family: each must have accepted every call, and both have left the same.
fn both(name: &str, family: Family, book: &Book, calls: &[Call], list: &mut [u64]) -> (Book, Book) {
    let (mut ours, mut theirs, mut second) = (book.clone(), book.clone(), SecondBook::default());
    for call in calls {
        let numbers = (call_ours(&mut ours, family, call, list), call_theirs(&mut second, &mut theirs, family, call, list));
        assert_eq!(numbers, (0, 0), "{name}");
    }
    let same = ours.body == theirs.body && ours.heads == theirs.heads && ours.counts == theirs.state.counts.words();
    assert!(same && (ours.state.mark, ours.state.free) == (theirs.state.mark, theirs.state.free), "{name}");
    (ours, theirs)
}

/// A case of some calls of the book on copies of one.
fn on_copies(name: &str, book: Book, calls: Vec<Call>) -> Case {
    let mut list = vec![0u64; 1 << 17];
    let (mut ours, mut theirs) = both(name, Family::Book, &book, &calls, &mut list);
    let (mut second, calls_too, book_too, mut list_too) = (SecondBook::default(), calls.clone(), book.clone(), list.clone());
    case(
        format!("book: {name}"),
        move || {
            ours.copy(&book);
            calls.iter().for_each(|c| seen(call_book(&mut ours, c, &mut list)));
        },
        move || {
            theirs.copy(&book_too);
            calls_too.iter().for_each(|c| seen(call_theirs(&mut second, &mut theirs, Family::Book, c, &mut list_too)));
        },
    )
}

/// How often the calls of a case in place are made in a turn, and how many bytes of key 0's block are put back after each time.
const TIMES: usize = 64;
const PUT_BACK: usize = 24;

/// Puts back what calls on key 0 changed of a book: the first bytes of its block, its head and the state.
fn put_back(book: &mut Book, from: &Book, block: usize) {
    book.body[block..block + PUT_BACK].copy_from_slice(&from.body[block..block + PUT_BACK]);
    book.heads[0] = from.heads[0];
    book.copy_state(from);
}

/// A case of some calls of a family on key 0, which are made in place many times.
fn in_place(name: &str, (family, family_name): (Family, &str), book: Book, calls: Vec<Call>) -> Case {
    let name = format!("{family_name}: {name}, {} keys", book.heads.len());
    let (mut list, block) = (vec![0u64; 8192], 4096);
    let (mut ours, mut theirs) = both(&name, family, &book, &calls, &mut list);
    put_back(&mut ours, &book, block);
    put_back(&mut theirs, &book, block);
    both(&name, family, &ours, &calls, &mut list);
    let (mut second, calls_too, book_too, mut list_too) = (SecondBook::default(), calls.clone(), book.clone(), list.clone());
    case(
        name,
        move || {
            for _ in 0..TIMES {
                calls.iter().for_each(|c| seen(call_ours(&mut ours, family, c, &mut list)));
                put_back(&mut ours, &book, block);
            }
        },
        move || {
            for _ in 0..TIMES {
                calls_too.iter().for_each(|c| seen(call_theirs(&mut second, &mut theirs, family, c, &mut list_too)));
                put_back(&mut theirs, &book_too, block);
            }
        },
    )
}

/// A rising list, from 2^20 to 2^40 on, whose differences are from 1 up to a bound.
fn rising(rng: &mut Rng, count: usize, bound: u64) -> Vec<u64> {
    let mut last = 1 << (20 + rng.below(20));
    (0..count)
        .map(|_| {
            last += 1 + rng.below(bound);
            last
        })
        .collect()
}

/// A book of some keys with a list each, loaded tight, and what is appended to each: the numbers that follow.
fn with_lists(rng: &mut Rng, pages: usize, keys: u64, held: usize, more: usize, bound: u64) -> (Book, Vec<Call>) {
    let mut book = Book::fresh(pages, keys as usize);
    let mut calls = Vec::new();
    for key in 0..keys {
        let list = rising(rng, held + more, bound);
        book.load_theirs(key, &list[..held]);
        calls.extend(list[held..].iter().map(|&fk| Call::Append(key, fk)));
    }
    (book, calls)
}

/// Appends: in small slabs, in large ones, to the last page, with a move, and where a chain grows.
fn appends(cases: &mut Vec<Case>) {
    let mut rng = Rng(71);
    let (book, calls) = with_lists(&mut rng, 4, 64, 0, 4, 40_000);
    cases.push(on_copies("4 appends to each of 64 empty keys", book, calls));
    for (held, more, bound) in [(6, 2, 1 << 20), (60, 4, 1 << 20), (220, 16, 1 << 27)] {
        let (book, calls) = with_lists(&mut rng, 16, 16, held, more, bound);
        cases.push(on_copies(&format!("{more} appends to each of 16 slabs of {held}"), book, calls));
    }
    let (book, calls) = with_lists(&mut rng, 4, 64, 4, 1, 100);
    cases.push(on_copies("an append to each of 64 full slabs, which moves", book, calls));
    for bound in [40, 300, 1 << 20] {
        let (book, calls) = with_lists(&mut rng, 8, 1, 1000, 64, bound);
        cases.push(on_copies(&format!("64 appends to a last page of 1,000, up to {bound} apart"), book, calls));
    }
    let (book, calls) = with_lists(&mut rng, 8, 1, 4060, 64, 100);
    cases.push(on_copies("64 appends to a chain that grows", book, calls));
}

/// Loads of some lengths, with a spare slot and tight.
fn loads(cases: &mut Vec<Case>) {
    let mut rng = Rng(72);
    for (count, keys, pages, bound) in [(2, 64, 4, 40_000), (30, 64, 8, 40_000), (256, 16, 16, 300), (65_535, 1, 64, 40)] {
        let lists: Vec<Vec<u64>> = (0..keys).map(|_| rising(&mut rng, count, bound)).collect();
        for (name, fit) in [("load", Fit::Spare), ("load tight", Fit::Tight)] {
            let calls = lists.iter().enumerate().map(|(key, list)| Call::Load(key as u64, list.clone(), fit)).collect();
            cases.push(on_copies(&format!("{name} {count} onto each of {keys} keys"), Book::fresh(pages, keys as usize), calls));
        }
    }
}

/// Reads and drops, of slabs and of a chain of 16 pages.
fn reads_and_drops(cases: &mut Vec<Case>) {
    let mut rng = Rng(73);
    for (held, keys, pages, bound, what) in [
        (6, 64, 4, 40_000, "slabs of 6"),
        (120, 16, 16, 300, "slabs of 120"),
        (30_000, 1, 32, 300, "chain of 16 pages"),
        (60_000, 1, 32, 100, "chain of 15 pages, close"),
    ] {
        let (book, _) = with_lists(&mut rng, pages, keys, held, 0, bound);
        cases.push(on_copies(&format!("read {keys} {what}"), book.clone(), (0..keys).map(Call::Read).collect()));
        cases.push(on_copies(&format!("drop {keys} {what}"), book, (0..keys).map(Call::Drop).collect()));
    }
}

/// The bytes of a body that calls changed, from the first to the last.
fn changed(before: &[u8], after: &[u8]) -> Range<usize> {
    let differs = |at: &usize| before[*at] != after[*at];
    let first = (0..before.len()).find(differs).unwrap_or(0);
    first..(first..before.len()).rfind(differs).map_or(first, |last| last + 1)
}

/// A case of an extend of key 0 by a family against its appends, one after another: both sides are ours, leave the same, and put back what
/// they changed.
fn against_appends(what: &str, (family, family_name): (Family, &str), book: &Book, more: &[u64]) -> Case {
    let name = format!("{family_name}: extend by {} over appends, {what}", more.len());
    let (extend, appends) = (vec![Call::Extend(0, more.to_vec())], more.iter().map(|&fk| Call::Append(0, fk)).collect::<Vec<Call>>());
    let ((mut by_extend, _), (mut by_appends, _)) =
        (both(&name, family, book, &extend, &mut []), both(&name, family, book, &appends, &mut []));
    assert!(by_extend.body == by_appends.body && by_extend.heads == by_appends.heads && by_extend.counts == by_appends.counts, "{name}");
    let part = changed(&book.body, &by_extend.body);
    let (from, from_too, part_too) = (book.clone(), book.clone(), part.clone());
    let turn = move |b: &mut Book, from: &Book, part: &Range<usize>, calls: &[Call]| {
        b.body[part.clone()].copy_from_slice(&from.body[part.clone()]);
        b.heads[0] = from.heads[0];
        b.copy_state(from);
        calls.iter().for_each(|c| seen(call_ours(b, family, c, &mut [])));
    };
    case(name, move || turn(&mut by_extend, &from, &part, &extend), move || turn(&mut by_appends, &from_too, &part_too, &appends))
}

/// Extends by 1,000 numbers: of an empty key, of one in a slab, in a page and in a chain, whose numbers are up to 100 or 2^20 apart.
fn extends(cases: &mut Vec<Case>) {
    let mut rng = Rng(74);
    for (what, held, bound) in [
        ("empty", 0, 300),
        ("slab of 100", 100, 300),
        ("page of 1,000", 1000, 100),
        ("chain of 10,000", 10_000, 100),
        ("10,000 apart", 10_000, 1 << 20),
    ] {
        let list = rising(&mut rng, held + 1000, bound);
        let mut book = Book::fresh(32, 1);
        book.load_theirs(0, &list[..held]);
        FAMILIES.into_iter().for_each(|family| cases.push(against_appends(what, family, &book, &list[held..])));
    }
}

/// Short calls on key 0 of books with few keys and many, by both families: the book's judge the desks of all keys, the core's don't.
fn families(cases: &mut Vec<Case>) {
    let appends = |count: u64| (1..=count).map(|k| Call::Append(0, 300 * k)).chain([Call::Drop(0)]).collect::<Vec<Call>>();
    let row = |last: u64| (1..=last).collect::<Vec<u64>>();
    for keys in [1, 1000, 50_000] {
        let holding = |last: u64| {
            let mut book = Book::fresh(8, keys);
            book.load_theirs(0, &row(last));
            book
        };
        for family in FAMILIES {
            let mut add = |name: &str, book: Book, calls: Vec<Call>| cases.push(in_place(name, family, book, calls));
            add("append and drop, inline", Book::fresh(8, keys), appends(1));
            add("2 appends and drop", Book::fresh(8, keys), appends(2));
            add("3 appends and drop", Book::fresh(8, keys), appends(3));
            add("load of 4 and drop", Book::fresh(8, keys), vec![Call::Load(0, vec![1, 300, 301, 302], Fit::Spare), Call::Drop(0)]);
            add("append in a slab of 200", slab_of_200(keys), vec![Call::Append(0, 201)]);
            add("append in a page of 1,000", holding(1000), vec![Call::Append(0, 1001)]);
            add("read, inline", holding(1), vec![Call::Read(0)]);
            add("read of a slab of 6", holding(6), vec![Call::Read(0)]);
            add("read of a slab of 200", holding(200), vec![Call::Read(0)]);
            add("read of a page of 1,000", holding(1000), vec![Call::Read(0)]);
        }
    }
}

/// A book whose key 0 has a slab of 200 numbers, with slots for more.
fn slab_of_200(keys: usize) -> Book {
    let (mut book, fks) = (Book::fresh(8, keys), (1..=200).collect::<Vec<u64>>());
    let at = At { key: 0, by: By::List(&book.desks) };
    SecondBook::default().load(&mut book.body, &mut book.heads, &mut book.state, at, &fks, Fit::Spare).expect("a load");
    book.counts = book.state.counts.words();
    book
}

/// The cases of the book.
pub fn cases(cases: &mut Vec<Case>) {
    families(cases);
    appends(cases);
    extends(cases);
    loads(cases);
    reads_and_drops(cases);
}

#[cfg(test)]
mod tests {
    /// Each case has its calls accepted by both sides, which leave the same.
    #[test]
    fn cases_can_be_measured() {
        let mut cases = Vec::new();
        super::cases(&mut cases);
        assert!(cases.len() > 60);
    }
}
