//! Our book in lockstep with the second one, on random histories and damaged ones, and on starts that were written elsewhere.
mod cases;
mod damage;
mod desk_tally;
mod extend_tally;
mod far;
mod history;
mod judging;
pub mod large;
mod limits;
pub mod lists;
mod pair;
mod record;
mod run_tally;
mod spoil;
mod spoiled;
mod starts;
mod tally;

use crate::compare::{Found, Smallest};
use crate::lockstep::history::{Ended, History};
use crate::lockstep::pair::Pair;
use crate::lockstep::tally::Tally;
use crate::rng::Rng;
use std::collections::BTreeSet;

/// Histories in the first round, and in each other; such that have extends; and starts that were written elsewhere.
const FIRST: u64 = 1500;
const ROUND: u64 = 20;
const FIRST_EXTENDING: u64 = 400;
const ROUND_EXTENDING: u64 = 8;
const FIRST_STARTS: u64 = 600;
const ROUND_STARTS: u64 = 20;

/// Histories among which those that are written down are chosen.
const CANDIDATES: u64 = 16_000;
/// The most text of a file, how many files there are, and the longest list of a call, which the program has room for.
const MOST_TEXT: usize = 60_000;
const FILES: usize = 5;
const MOST_NUMBERS: usize = 16_384;

/// Histories whose lines a test replays.
#[cfg(test)]
const TESTED: u64 = 60;

/// The lines of a short history, their length and what it meets; nothing where a list is too long.
fn written(number: u64, pair: &mut Pair) -> (Vec<String>, usize, BTreeSet<String>) {
    let mut tally = Tally::default();
    let (lines, longest) = History::written(Rng(number << 8), pair, &mut tally, format!("history {number}")).lines();
    let met = tally.kinds().into_iter().filter(|k| k.1 > 0 && longest <= MOST_NUMBERS).map(|k| k.0).collect();
    let len = lines.iter().map(|l| l.len() + 1).sum();
    (lines, len, met)
}

/// The lines of histories by hand, and of some short ones, in files, so chosen that they meet what short ones can: each time the one that
/// meets the most that those before it don't, for its length.
pub fn written_histories() -> Vec<Vec<String>> {
    let mut pair = Pair::default();
    let by_hand = cases::lines(&mut pair);
    let mut candidates: Vec<(u64, usize, BTreeSet<String>)> = Vec::new();
    for number in 0..CANDIDATES {
        let (_, len, met) = written(number, &mut pair);
        candidates.push((number, len, met));
    }
    let (mut met, mut files) = (BTreeSet::new(), vec![by_hand]);
    let (mut lines, mut text) = (Vec::new(), 0);
    loop {
        let worth = |c: &(u64, usize, BTreeSet<String>)| c.2.difference(&met).count() * 1_000_000 / c.1;
        candidates.retain(|c| worth(c) > 0 && c.1 <= MOST_TEXT);
        let best = candidates.iter().filter(|c| text + c.1 <= MOST_TEXT).max_by_key(|c| worth(c)).cloned();
        if let Some((number, len, kinds)) = best {
            met.extend(kinds);
            text += len;
            lines.extend(written(number, &mut pair).0);
            continue;
        }
        files.push(std::mem::take(&mut lines));
        text = 0;
        if candidates.is_empty() || files.len() == 1 + FILES {
            break;
        }
    }
    let kinds = Tally::default().written_kinds();
    kinds.iter().filter(|k| !met.contains(&k.0)).for_each(|k| eprintln!("no history met: {}", k.0));
    let count: usize = files.iter().map(Vec::len).sum();
    eprintln!("{count} lines of histories meet {} of {} kinds", met.len(), kinds.len());
    files
}

/// Notes how a history ended.
fn note(ended: Ended, round: u64, name: String, found: &mut Found) {
    let calls = *ended.as_ref().unwrap_or_else(|(calls, _)| calls);
    found.inputs += calls;
    found.calls += calls;
    if let Err((calls, what)) = ended {
        found.differs(Smallest { size: (calls as usize, 0), what, round, input: format!("{name}, call {calls}") });
    }
}

/// Both books, and what their histories met.
#[derive(Default)]
pub struct Lockstep {
    pair: Pair,
    tally: Tally,
}

impl Lockstep {
    /// Runs the histories of a round.
    pub fn compare(&mut self, seed: u64, round: u64, found: &mut Found) {
        for number in 0..if round == 0 { FIRST } else { ROUND } {
            // The first histories are the same in every run.
            let rng = Rng(if round == 0 { number << 8 } else { seed ^ 0xb00c << 48 ^ round << 24 ^ number << 8 });
            let name = format!("round {round}, history {number}");
            let ended = History::new(rng, &mut self.pair, &mut self.tally, name.clone()).run();
            note(ended, round, name, found);
        }
        for number in 0..if round == 0 { FIRST_EXTENDING } else { ROUND_EXTENDING } {
            let rng = Rng(if round == 0 { number << 8 | 1 } else { seed ^ 0xe87e << 48 ^ round << 24 ^ number << 8 });
            let name = format!("round {round}, history with extends {number}");
            let ended = History::extending(rng, &mut self.pair, &mut self.tally, name.clone()).run();
            note(ended, round, name, found);
        }
        for number in 0..if round == 0 { FIRST_STARTS } else { ROUND_STARTS } {
            let rng = Rng(if round == 0 { number << 8 } else { seed ^ 0x57a7 << 48 ^ round << 24 ^ number << 8 });
            let name = format!("round {round}, start {number}");
            let ended = judging::run(rng, &mut self.pair, &mut self.tally, &name);
            note(ended, round, name, found);
        }
    }

    /// Prints what was met, and tells how many kinds that must be met weren't.
    pub fn print(&self) -> u64 {
        self.tally.print()
    }
}

#[cfg(test)]
mod tests {
    use super::*;

    /// Some histories, on which both books agree.
    #[test]
    fn books_agree() {
        let (mut pair, mut tally) = (Pair::default(), Tally::default());
        for number in 0..40 {
            let ended = History::new(Rng(number << 8), &mut pair, &mut tally, format!("history {number}")).run();
            assert!(ended.is_ok(), "{ended:?}");
            let ended = History::extending(Rng(number << 8 | 1), &mut pair, &mut tally, format!("history with extends {number}")).run();
            assert!(ended.is_ok(), "{ended:?}");
        }
    }

    /// Some starts, on which both books agree.
    #[test]
    fn starts_agree() {
        let (mut pair, mut tally) = (Pair::default(), Tally::default());
        for number in 0..40 {
            let ended = judging::run(Rng(number << 8), &mut pair, &mut tally, &format!("start {number}"));
            assert!(ended.is_ok(), "{ended:?}");
        }
    }
}
