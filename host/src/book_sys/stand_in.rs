//! The second book in the place of the library: the same calls, with what they answer and leave. A comparison with it compares nothing; it
//! tries the histories, and shows which kinds they meet.
use super::{Counts, Free, Limit};
use crate::second_book::desks::{At, By, Limits};
use crate::second_book::space::State;
use crate::second_book::{Fit, Refused, SecondBook};
use crate::table::numbers_theirs;
use std::slice::{from_raw_parts, from_raw_parts_mut};

/// The slice of a pointer, which may be null where it has no length.
unsafe fn slice<'a, T>(at: *const T, len: usize) -> &'a [T] {
    if len == 0 {
        &[]
    } else {
        from_raw_parts(at, len)
    }
}

unsafe fn slice_mut<'a, T>(at: *mut T, len: usize) -> &'a mut [T] {
    if len == 0 {
        &mut []
    } else {
        from_raw_parts_mut(at, len)
    }
}

/// The state of what is lent apart.
fn state_of(mark: u64, free: &Free, counts: &Counts) -> State {
    State { mark, free: *free, counts: crate::second_book::desks::Counts::of_words(counts) }
}

/// What an extend hands out.
struct Out<'a> {
    accepted: &'a mut u64,
    refusal: &'a mut u32,
    place: (&'a mut u8, &'a mut u8, &'a mut u16, &'a mut u64),
    moves: &'a mut u64,
    rewritten: &'a mut u64,
}

/// A book that a change is lent.
struct Lent<'a> {
    body: &'a mut [u8],
    heads: &'a mut [u64],
    state: (&'a mut u64, &'a mut Free, &'a mut Counts),
}

impl Lent<'_> {
    /// Makes a change, puts the state back, and tells the refusal's number, and what is told or zeros.
    fn change<T: Default>(self, call: impl FnOnce(&mut SecondBook, &mut [u8], &mut [u64], &mut State) -> Result<T, Refused>) -> (u32, T) {
        let (mark, free, counts) = self.state;
        let mut state = state_of(*mark, free, counts);
        let answer = call(&mut SecondBook::default(), self.body, self.heads, &mut state);
        (*mark, *free, *counts) = (state.mark, state.free, state.counts.words());
        answer.map_or_else(|refused| (refused.number(), T::default()), |told| (0, told))
    }

    fn load(self, at: At, fks: &[u64], fit: Fit, pages: &mut u64) -> u32 {
        let (number, told) = self.change(|book, body, heads, state| book.load(body, heads, state, at, fks, fit));
        *pages = told;
        number
    }

    fn append(self, at: At, fk: u64, out: (&mut u8, &mut u8, &mut u16, &mut u64, &mut u64)) -> u32 {
        let (number, ([kind, class, used, place], rewritten)) = self
            .change(|book, body, heads, state| book.append(body, heads, state, at, fk).map(|a| (numbers_theirs(&a.place), a.rewritten)));
        (*out.0, *out.1, *out.2, *out.3, *out.4) = (kind as u8, class as u8, used as u16, place, rewritten);
        number
    }

    fn extend(self, at: At, fks: &[u64], out: Out) -> u32 {
        let call = |book: &mut SecondBook, body: &mut [u8], heads: &mut [u64], state: &mut State| book.extend(body, heads, state, at, fks);
        let (number, told) = self.change(|book, body, heads, state| call(book, body, heads, state).map(Some));
        let [kind, class, used, place] = told.as_ref().map_or([0; 4], |e| numbers_theirs(&e.place));
        (*out.place.0, *out.place.1, *out.place.2, *out.place.3) = (kind as u8, class as u8, used as u16, place);
        (*out.accepted, *out.refusal) = told.as_ref().map_or((0, 0), |e| (e.count, e.refusal()));
        (*out.moves, *out.rewritten) = told.as_ref().map_or((0, 0), |e| (e.moves, e.rewritten));
        number
    }

    fn drop(self, at: At, length: &mut u64) -> u32 {
        let (number, told) = self.change(|book, body, heads, state| book.drop(body, heads, state, at));
        *length = told;
        number
    }
}

/// A read.
fn read(body: &[u8], heads: &[u64], state: &State, at: At, out: &mut [u64], told: [&mut u64; 3]) -> u32 {
    let mut book = SecondBook::default();
    let answer = book.read(body, heads, state, at, out).map(|l| [l.length, l.pages, book.padded(body, heads, at.key)]);
    let (number, numbers) = answer.map_or_else(|refused| (refused.number(), [0; 3]), |numbers| (0, numbers));
    told.into_iter().zip(numbers).for_each(|(told, n)| *told = n);
    number
}

/// How many numbers a key has.
fn tell_length(body: &[u8], heads: &[u64], state: &State, at: At, length: &mut u64) -> u32 {
    let answer = SecondBook::default().length(body, heads, state, at);
    let (number, told) = answer.map_or_else(|refused| (refused.number(), 0), |told| (0, told));
    *length = told;
    number
}

pub unsafe extern "C" fn ouriscado_book_fresh(
    body: *const u8,
    body_len: usize,
    heads: *mut u64,
    heads_len: usize,
    mark: &mut u64,
    free: &mut Free,
    counts: &mut Counts,
    desks: *const u8,
    desks_len: usize,
    reserve: &Limit,
    ceiling: &Limit,
) -> u32 {
    let (bytes, limits) = (slice(body, body_len), Limits { reserve: *reserve, ceiling: *ceiling });
    let lent = Lent { body: &mut [], heads: slice_mut(heads, heads_len), state: (mark, free, counts) };
    lent.change(|book, _, heads, state| book.fresh(bytes, heads, state, slice(desks, desks_len), &limits)).0
}

pub unsafe extern "C" fn ouriscado_book_load(
    body: *mut u8,
    body_len: usize,
    heads: *mut u64,
    heads_len: usize,
    mark: &mut u64,
    free: &mut Free,
    counts: &mut Counts,
    desks: *const u8,
    desks_len: usize,
    key: u64,
    fks: *const u64,
    fks_len: usize,
    pages: &mut u64,
) -> u32 {
    let lent = Lent { body: slice_mut(body, body_len), heads: slice_mut(heads, heads_len), state: (mark, free, counts) };
    lent.load(At { key, by: By::List(slice(desks, desks_len)) }, slice(fks, fks_len), Fit::Spare, pages)
}

pub unsafe extern "C" fn ouriscado_book_load_tight(
    body: *mut u8,
    body_len: usize,
    heads: *mut u64,
    heads_len: usize,
    mark: &mut u64,
    free: &mut Free,
    counts: &mut Counts,
    desks: *const u8,
    desks_len: usize,
    key: u64,
    fks: *const u64,
    fks_len: usize,
    pages: &mut u64,
) -> u32 {
    let lent = Lent { body: slice_mut(body, body_len), heads: slice_mut(heads, heads_len), state: (mark, free, counts) };
    lent.load(At { key, by: By::List(slice(desks, desks_len)) }, slice(fks, fks_len), Fit::Tight, pages)
}

pub unsafe extern "C" fn ouriscado_book_append(
    body: *mut u8,
    body_len: usize,
    heads: *mut u64,
    heads_len: usize,
    mark: &mut u64,
    free: &mut Free,
    counts: &mut Counts,
    desks: *const u8,
    desks_len: usize,
    key: u64,
    fk: u64,
    kind: &mut u8,
    class: &mut u8,
    used: &mut u16,
    place: &mut u64,
    rewritten: &mut u64,
) -> u32 {
    let lent = Lent { body: slice_mut(body, body_len), heads: slice_mut(heads, heads_len), state: (mark, free, counts) };
    lent.append(At { key, by: By::List(slice(desks, desks_len)) }, fk, (kind, class, used, place, rewritten))
}

pub unsafe extern "C" fn ouriscado_book_extend(
    body: *mut u8,
    body_len: usize,
    heads: *mut u64,
    heads_len: usize,
    mark: &mut u64,
    free: &mut Free,
    counts: &mut Counts,
    desks: *const u8,
    desks_len: usize,
    key: u64,
    fks: *const u64,
    fks_len: usize,
    accepted: &mut u64,
    refusal: &mut u32,
    kind: &mut u8,
    class: &mut u8,
    used: &mut u16,
    place: &mut u64,
    moves: &mut u64,
    rewritten: &mut u64,
) -> u32 {
    let lent = Lent { body: slice_mut(body, body_len), heads: slice_mut(heads, heads_len), state: (mark, free, counts) };
    let out = Out { accepted, refusal, place: (kind, class, used, place), moves, rewritten };
    lent.extend(At { key, by: By::List(slice(desks, desks_len)) }, slice(fks, fks_len), out)
}

pub unsafe extern "C" fn ouriscado_book_drop(
    body: *mut u8,
    body_len: usize,
    heads: *mut u64,
    heads_len: usize,
    mark: &mut u64,
    free: &mut Free,
    counts: &mut Counts,
    desks: *const u8,
    desks_len: usize,
    key: u64,
    length: &mut u64,
) -> u32 {
    let lent = Lent { body: slice_mut(body, body_len), heads: slice_mut(heads, heads_len), state: (mark, free, counts) };
    lent.drop(At { key, by: By::List(slice(desks, desks_len)) }, length)
}

pub unsafe extern "C" fn ouriscado_core_load(
    body: *mut u8,
    body_len: usize,
    heads: *mut u64,
    heads_len: usize,
    mark: &mut u64,
    free: &mut Free,
    counts: &mut Counts,
    desk: u64,
    key: u64,
    fks: *const u64,
    fks_len: usize,
    pages: &mut u64,
) -> u32 {
    let lent = Lent { body: slice_mut(body, body_len), heads: slice_mut(heads, heads_len), state: (mark, free, counts) };
    lent.load(At { key, by: By::Desk(desk) }, slice(fks, fks_len), Fit::Spare, pages)
}

pub unsafe extern "C" fn ouriscado_core_load_tight(
    body: *mut u8,
    body_len: usize,
    heads: *mut u64,
    heads_len: usize,
    mark: &mut u64,
    free: &mut Free,
    counts: &mut Counts,
    desk: u64,
    key: u64,
    fks: *const u64,
    fks_len: usize,
    pages: &mut u64,
) -> u32 {
    let lent = Lent { body: slice_mut(body, body_len), heads: slice_mut(heads, heads_len), state: (mark, free, counts) };
    lent.load(At { key, by: By::Desk(desk) }, slice(fks, fks_len), Fit::Tight, pages)
}

pub unsafe extern "C" fn ouriscado_core_append(
    body: *mut u8,
    body_len: usize,
    heads: *mut u64,
    heads_len: usize,
    mark: &mut u64,
    free: &mut Free,
    counts: &mut Counts,
    desk: u64,
    key: u64,
    fk: u64,
    kind: &mut u8,
    class: &mut u8,
    used: &mut u16,
    place: &mut u64,
    rewritten: &mut u64,
) -> u32 {
    let lent = Lent { body: slice_mut(body, body_len), heads: slice_mut(heads, heads_len), state: (mark, free, counts) };
    lent.append(At { key, by: By::Desk(desk) }, fk, (kind, class, used, place, rewritten))
}

pub unsafe extern "C" fn ouriscado_core_extend(
    body: *mut u8,
    body_len: usize,
    heads: *mut u64,
    heads_len: usize,
    mark: &mut u64,
    free: &mut Free,
    counts: &mut Counts,
    desk: u64,
    key: u64,
    fks: *const u64,
    fks_len: usize,
    accepted: &mut u64,
    refusal: &mut u32,
    kind: &mut u8,
    class: &mut u8,
    used: &mut u16,
    place: &mut u64,
    moves: &mut u64,
    rewritten: &mut u64,
) -> u32 {
    let lent = Lent { body: slice_mut(body, body_len), heads: slice_mut(heads, heads_len), state: (mark, free, counts) };
    let out = Out { accepted, refusal, place: (kind, class, used, place), moves, rewritten };
    lent.extend(At { key, by: By::Desk(desk) }, slice(fks, fks_len), out)
}

pub unsafe extern "C" fn ouriscado_core_drop(
    body: *mut u8,
    body_len: usize,
    heads: *mut u64,
    heads_len: usize,
    mark: &mut u64,
    free: &mut Free,
    counts: &mut Counts,
    desk: u64,
    key: u64,
    length: &mut u64,
) -> u32 {
    let lent = Lent { body: slice_mut(body, body_len), heads: slice_mut(heads, heads_len), state: (mark, free, counts) };
    lent.drop(At { key, by: By::Desk(desk) }, length)
}

pub unsafe extern "C" fn ouriscado_book_read(
    body: *const u8,
    body_len: usize,
    heads: *const u64,
    heads_len: usize,
    mark: u64,
    counts: &Counts,
    desks: *const u8,
    desks_len: usize,
    key: u64,
    out: *mut u64,
    out_len: usize,
    length: &mut u64,
    pages: &mut u64,
    padded: &mut u64,
) -> u32 {
    let (state, at, told) = (state_of(mark, &[0; 9], counts), At { key, by: By::List(slice(desks, desks_len)) }, [length, pages, padded]);
    read(slice(body, body_len), slice(heads, heads_len), &state, at, slice_mut(out, out_len), told)
}

pub unsafe extern "C" fn ouriscado_core_read(
    body: *const u8,
    body_len: usize,
    heads: *const u64,
    heads_len: usize,
    mark: u64,
    key: u64,
    out: *mut u64,
    out_len: usize,
    length: &mut u64,
    pages: &mut u64,
    padded: &mut u64,
) -> u32 {
    let (state, at, told) = (State::at(mark), At { key, by: By::Desk(0) }, [length, pages, padded]);
    read(slice(body, body_len), slice(heads, heads_len), &state, at, slice_mut(out, out_len), told)
}

pub unsafe extern "C" fn ouriscado_book_length(
    body: *const u8,
    body_len: usize,
    heads: *const u64,
    heads_len: usize,
    mark: u64,
    counts: &Counts,
    desks: *const u8,
    desks_len: usize,
    key: u64,
    length: &mut u64,
) -> u32 {
    let (state, at) = (state_of(mark, &[0; 9], counts), At { key, by: By::List(slice(desks, desks_len)) });
    tell_length(slice(body, body_len), slice(heads, heads_len), &state, at, length)
}

pub unsafe extern "C" fn ouriscado_core_length(
    body: *const u8,
    body_len: usize,
    heads: *const u64,
    heads_len: usize,
    mark: u64,
    key: u64,
    length: &mut u64,
) -> u32 {
    let at = At { key, by: By::Desk(0) };
    tell_length(slice(body, body_len), slice(heads, heads_len), &State::at(mark), at, length)
}

pub unsafe extern "C" fn ouriscado_book_check(
    body: *const u8,
    body_len: usize,
    heads: *const u64,
    heads_len: usize,
    mark: u64,
    free: &Free,
    counts: &Counts,
    desks: *const u8,
    desks_len: usize,
    work: *mut u8,
    work_len: usize,
    ground: &mut u32,
    which: &mut u64,
    lost: &mut u64,
) -> u32 {
    let (state, list) = (state_of(mark, free, counts), slice(desks, desks_len));
    let judged = SecondBook::default().check(slice(body, body_len), slice(heads, heads_len), &state, list, slice_mut(work, work_len));
    let (number, told) = judged.map_or_else(|refused| (refused.number(), (0, 0, 0)), |v| (0, (v.ground, v.which, v.lost)));
    (*ground, *which, *lost) = told;
    number
}
