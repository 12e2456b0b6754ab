//! Runs out of freed pages in the second book: the list of freed pages is followed and judged, its offsets are sorted, and of the list that
//! is left each link is written anew.
use crate::second_book::space::{State, PAGE};
use crate::second_book::Refused;
use std::collections::BTreeSet;

/// Why a list of freed pages can't be searched.
pub type Stray = &'static str;
pub const UNALIGNED: Stray = "an unaligned page";
pub const PAST_MARK: Stray = "a page past the mark";
pub const ACROSS_MARK: Stray = "a page that lies across the mark";
pub const TWICE: Stray = "a page twice";
pub const NO_HEAD: Stray = "freed pages without a free head";
pub const NO_COUNT: Stray = "a free head without freed pages";
pub const FEWER: Stray = "fewer pages than counted";
pub const MORE: Stray = "more pages than counted";
pub const STRAYS: [Stray; 8] = [UNALIGNED, PAST_MARK, ACROSS_MARK, TWICE, NO_HEAD, NO_COUNT, FEWER, MORE];

/// Why no freed page can stand at an offset, not 0, where it can't; below 4,096 each is unaligned.
fn stray(at: u64, mark: u64) -> Option<Stray> {
    match at {
        _ if !at.is_multiple_of(PAGE as u64) => Some(UNALIGNED),
        _ if at >= mark => Some(PAST_MARK),
        _ if mark - at < PAGE as u64 => Some(ACROSS_MARK),
        _ => None,
    }
}

/// 42: the freed pages from the top of their list, which ends, holds each once and has as many as are counted.
pub fn freed_pages(body: &[u8], state: &State) -> Result<Vec<u64>, Refused> {
    let (mut pages, mut met, mut at) = (Vec::new(), BTreeSet::new(), state.free[8]);
    while at != 0 {
        if let Some(why) = stray(at, state.mark.min(body.len() as u64)) {
            return Err(Refused::Strays(why));
        }
        if !met.insert(at) {
            return Err(Refused::Strays(TWICE));
        }
        pages.push(at);
        at = u64::from_le_bytes(body[at as usize..][..8].try_into().expect("a link"));
    }
    match (pages.len() as u64, state.counts.freed) {
        (is, counted) if is == counted => Ok(pages),
        (0, _) => Err(Refused::Strays(NO_HEAD)),
        (_, 0) => Err(Refused::Strays(NO_COUNT)),
        (is, counted) => Err(Refused::Strays(if is < counted { FEWER } else { MORE })),
    }
}

/// Where stretches of freed pages begin, rising, and how many pages each has; none adjoins the next.
pub fn stretches(pages: &[u64]) -> Vec<(u64, u64)> {
    let mut rising = pages.to_vec();
    rising.sort_unstable();
    rising.chunk_by(|a, b| b - a == PAGE as u64).map(|part| (part[0], part.len() as u64)).collect()
}

/// The lowest stretch of so many freed pages.
pub fn lowest(pages: &[u64], wanted: u64) -> Option<u64> {
    stretches(pages).into_iter().find(|(_, long)| *long >= wanted).map(|(at, _)| at)
}

/// Takes so many pages from an offset on out of the freed ones; those left keep their order.
pub fn take_out(body: &mut [u8], state: &mut State, pages: &[u64], off: u64, wanted: u64) {
    let run = off..off + wanted * PAGE as u64;
    let mut next = 0u64;
    for &page in pages.iter().rev().filter(|page| !run.contains(page)) {
        body[page as usize..][..8].copy_from_slice(&next.to_le_bytes());
        next = page;
    }
    state.free[8] = next;
}
