//! The space of the second book: blocks that are taken from a free list or from the mark, and blocks that are given back.
use crate::second_book::desks::{self, Counts, NO_LIMITS};
use crate::second_book::runs::{freed_pages, lowest, take_out};
use crate::second_book::Refused;
use oracle::error::StoreError;
use oracle::file::TableFile;
use oracle::free_lists::{carve_gap_into_freelist, pop_free_head, push_free_head};
use oracle::scripthash_layout::{slab_bytes, SH_PAGE_SLAB_CLASS};
use std::cell::Cell;

/// The bytes of a page, and its class.
pub const PAGE: usize = 4096;
pub const PAGE_CLASS: u8 = SH_PAGE_SLAB_CLASS;

/// The words of a state.
pub const WORDS: usize = 10 + desks::WORDS;

/// The mark, the free heads of the classes 0 to 8, and the counts of pages.
#[derive(Clone, Copy, Debug, PartialEq, Eq)]
pub struct State {
    pub mark: u64,
    pub free: [u64; 9],
    pub counts: Counts,
}

impl State {
    /// One with a mark, nothing freed or held, and no limits.
    pub fn at(mark: u64) -> State {
        State { mark, free: [0; 9], counts: Counts::fresh(NO_LIMITS) }
    }

    /// Its words: the mark, the free heads, and the counts.
    pub fn words(&self) -> [u64; WORDS] {
        [&[self.mark][..], &self.free, &self.counts.words()].concat().try_into().expect("as many words")
    }

    /// The state of words.
    pub fn of_words(words: &[u64; WORDS]) -> State {
        let counts = Counts::of_words(words[10..].try_into().expect("the counts' words"));
        State { mark: words[0], free: words[1..10].try_into().expect("nine words"), counts }
    }
}

/// What a call takes: a slab of a class, a page for an append, or a run of pages for a load.
#[derive(Clone, Copy, Debug, PartialEq, Eq)]
pub enum Take {
    Slab(u8),
    Page,
    Run(u64),
}

impl Take {
    /// The pages that it takes.
    fn pages(self) -> u64 {
        match self {
            Take::Slab(_) => 0,
            Take::Page => 1,
            Take::Run(count) => count,
        }
    }

    /// The class whose free list it is popped from, where that has a block; a run never is.
    fn list(self) -> Option<u8> {
        match self {
            Take::Slab(class) => Some(class),
            Take::Page => Some(PAGE_CLASS),
            Take::Run(_) => None,
        }
    }
}

/// Calls a function of theirs on a body and the free heads; theirs has more classes, which stay empty.
fn on_lists<R>(body: &mut [u8], state: &mut State, call: impl FnOnce(&TableFile, &mut [u64; 25]) -> Result<R, StoreError>) -> R {
    let mut heads = [0; 25];
    heads[..9].copy_from_slice(&state.free);
    let cells = Cell::from_mut(body).as_slice_of_cells();
    let answer = call(&TableFile(cells), &mut heads).expect("blocks are judged before");
    state.free.copy_from_slice(&heads[..9]);
    answer
}

/// The end of slabs: none is taken that ends past it. A slab's word has 40 bits for where it begins.
pub const SLABS_END: u64 = 1 << 40;

/// The mark, rounded up to a page.
pub fn rounded(mark: u64) -> u64 {
    mark.next_multiple_of(PAGE as u64)
}

/// 35: a free head must be that of a block between 4,096 and the mark, a slab's also below the end of slabs; the source doesn't look.
fn free_head(state: &State, class: u8) -> Result<(), Refused> {
    let (head, size) = (state.free[class as usize], slab_bytes(class));
    let (unit, end) = if class == PAGE_CLASS { (PAGE as u64, state.mark) } else { (16, state.mark.min(SLABS_END)) };
    if !head.is_multiple_of(unit) || head < 4096 || head > end.saturating_sub(size) {
        return Err(Refused::Number(35));
    }
    Ok(())
}

/// Where a block or run begins at the mark, and the mark behind it; 36 where there is no room.
fn at_mark(body: usize, mark: u64, what: Take) -> Result<(u64, u64), Refused> {
    let (start, size, end) = match what {
        Take::Slab(class) => (mark, slab_bytes(class), SLABS_END.min(body as u64)),
        _ => (rounded(mark), what.pages() * PAGE as u64, body as u64),
    };
    if start + size > end {
        return Err(Refused::Number(36));
    }
    Ok((start, start + size))
}

/// Takes a block or a run for a desk: of those freed, or at the mark, which for pages is first rounded up; the gap is carved into freed blocks,
/// past the end of slabs into none. A run of those freed is the lowest stretch. All is judged before: 35 or 42, 36, then 1, 40 and 41.
pub fn take(body: &mut [u8], state: &mut State, desk: usize, what: Take) -> Result<u64, Refused> {
    let Counts { freed, .. } = state.counts;
    if what == Take::Page && (state.free[8] == 0) != (freed == 0) {
        return Err(Refused::Number(35));
    }
    if let Some(class) = what.list().filter(|&class| state.free[class as usize] != 0) {
        free_head(state, class)?;
        allow(body.len(), state, desk, what.pages(), freed - what.pages(), state.mark)?;
        return Ok(on_lists(body, state, |file, heads| pop_free_head(file, heads, class)).expect("a freed block"));
    }
    if let Take::Run(wanted) = what {
        let pages = freed_pages(body, state)?;
        if let Some(off) = lowest(&pages, wanted) {
            allow(body.len(), state, desk, wanted, freed - wanted, state.mark)?;
            take_out(body, state, &pages, off, wanted);
            return Ok(off);
        }
    }
    let (mark, (off, end)) = (state.mark, at_mark(body.len(), state.mark, what)?);
    allow(body.len(), state, desk, what.pages(), freed, end)?;
    if off > mark && off <= SLABS_END {
        on_lists(body, state, |file, heads| carve_gap_into_freelist(file, heads, mark, off));
    }
    Ok(off)
}

/// 1, 40 and 41: whether counts let a desk take so many pages; if so, they, the freed pages and the mark are those after the take.
fn allow(body: usize, state: &mut State, desk: usize, pages: u64, freed: u64, mark: u64) -> Result<(), Refused> {
    state.counts.fit(body)?;
    state.counts.allow(body, desk, pages, freed, mark)?;
    state.counts.freed = freed;
    state.counts.held[desk] += pages;
    state.mark = mark;
    Ok(())
}

/// Gives a slab back.
pub fn release(body: &mut [u8], state: &mut State, class: u8, off: u64) {
    on_lists(body, state, |file, heads| push_free_head(file, heads, class, off));
}

/// Gives a desk's pages back, the first first. 1: the counts must fit the body; 31: the desk must hold as many.
pub fn release_pages(body: &mut [u8], state: &mut State, desk: usize, pages: &[u64]) -> Result<(), Refused> {
    let count = pages.len() as u64;
    state.counts.fit(body.len())?;
    if state.counts.held[desk] < count {
        return Err(Refused::Unsound(HELD_BY_DESK));
    }
    pages.iter().for_each(|&off| release(body, state, PAGE_CLASS, off));
    state.counts.freed += count;
    state.counts.held[desk] -= count;
    Ok(())
}

/// The ground on which a sound key isn't dropped.
pub const HELD_BY_DESK: &str = "a desk holds fewer pages than its key";
