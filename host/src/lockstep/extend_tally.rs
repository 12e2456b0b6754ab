//! What histories met of extends, and how often: empty lists, from which place to which, how many moves and pages, why a number was turned
//! back, the first or one behind others, and totals.
use crate::lockstep::pair::{Answer, FAMILIES};
use crate::lockstep::tally::Before;
use crate::second_book::space::State;
use std::collections::BTreeMap;

/// Where a list stands, by the kind of its place.
const PLACES: [&str; 4] = ["empty", "inline", "a slab", "pages"];
/// From which place an extend by some numbers leads to which.
const WAYS: [(usize, usize); 8] = [(0, 1), (0, 2), (0, 3), (1, 2), (1, 3), (2, 2), (2, 3), (3, 3)];

/// Why a number is turned back. Of counts above the body's pages, which 1 is for, only the core's extends meet a number that is.
const TURNED: [u32; 9] = [1, 12, 13, 14, 32, 35, 36, 40, 41];
/// Which number is turned back.
const WHICH: [&str; 2] = ["the first number", "a number behind others"];

/// The most moves of one extend: from an empty key to pages. A list that was loaded tight may move once more.
const MOST_MOVES: u64 = 8;
/// The pages that an extend takes; the last are as many and more.
const PAGES: u64 = 3;

/// What is done to totals.
const UNCOUNTED: [&str; 2] =
    ["a total that was never counted: an extend in its last page", "a total that was never counted: an extend that begins a page"];
const PASSED: [&str; 2] = ["a total of 2^32 - 1: an extend, after which it is unknown", "a total that passes 2^32 - 1 within an extend"];

/// Counts of what was met.
#[derive(Default)]
pub struct Extends(BTreeMap<String, u64>);

/// The kind of place that a word tells.
fn kind_of(word: u64) -> usize {
    match word >> 62 {
        0 => usize::from(word != 0),
        1 => 2,
        _ => 3,
    }
}

/// How many pages desks hold.
fn held(state: &State) -> u64 {
    state.counts.held.iter().fold(0, |sum, n| sum.wrapping_add(*n))
}

impl Extends {
    fn add(&mut self, kind: impl Into<String>) {
        *self.0.entry(kind.into()).or_default() += 1;
    }

    /// Counts an extend that was accepted, of a family, by the numbers offered, what was before it, and the state after it.
    pub fn count(&mut self, family: &str, offered: usize, before: &Before, answer: &Answer, after: &State) {
        let (told, from) = (answer.extension(), kind_of(before.word));
        if offered == 0 {
            return self.add(format!("{family}extend by nothing, {}", PLACES[from]));
        }
        if told.refusal != 0 {
            let which = WHICH[usize::from(told.count > 0)];
            self.add(format!("{family}extend: {which} refused by {}", told.refusal));
        }
        if told.count == 0 {
            return;
        }
        self.add(format!("{family}extend from {} to {}", PLACES[from], PLACES[told.kind as usize]));
        self.add(format!("{family}extend, moves: {}", told.moves));
        self.add(format!("{family}extend, pages taken: {}", held(after).wrapping_sub(held(&before.state)).min(PAGES)));
        match before.total {
            Some(0) => self.add(UNCOUNTED[usize::from(before.word & !(3 << 62) != told.place)]),
            Some(u32::MAX) => self.add(PASSED[0]),
            Some(total) if u64::from(total) + told.count > u64::from(u32::MAX) => self.add(PASSED[1]),
            _ => {}
        }
    }

    /// All that must be met, with how often it was.
    pub fn kinds(&self) -> Vec<(String, u64)> {
        let mut out = Vec::new();
        for (place, family) in FAMILIES.iter().enumerate() {
            out.extend(PLACES.map(|from| format!("{family}extend by nothing, {from}")));
            out.extend(WAYS.map(|(from, to)| format!("{family}extend from {} to {}", PLACES[from], PLACES[to])));
            out.extend((0..=MOST_MOVES).map(|moves| format!("{family}extend, moves: {moves}")));
            out.extend((0..=PAGES).map(|pages| format!("{family}extend, pages taken: {pages}")));
            for turned in TURNED.iter().filter(|refusal| place == 1 || **refusal != 1) {
                out.extend(WHICH.map(|which| format!("{family}extend: {which} refused by {turned}")));
            }
        }
        out.extend(UNCOUNTED.iter().chain(&PASSED).map(|what| String::from(*what)));
        out.into_iter().map(|kind| (kind.clone(), self.0.get(&kind).copied().unwrap_or(0))).collect()
    }
}
