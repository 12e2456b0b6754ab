//! Histories on bodies of up to 2^41 bytes, from given starts: marks around 2^30, 2^40 and 2^41, slabs up to 2^40 and across it, pages past it,
//! and totals near 2^32. Each is by hand, or random from a start of random blocks.
mod cases;
mod random;
mod tally;

use crate::compare::{Found, Smallest};
use crate::lockstep::far::{Far, MOST_WORK};
use crate::lockstep::large::cases::{cases, row, Case};
use crate::lockstep::large::random::random;
use crate::lockstep::large::tally::{Before, Tally, LONG_CHECK, SCATTERED_FREED, SHORT_WORK};
use crate::lockstep::lists;
use crate::lockstep::pair::{Answer, Call};
use crate::rng::Rng;
use crate::second_book::space::{PAGE, PAGE_CLASS, SLABS_END};
use crate::second_book::{Fit, MOST_BODY};
use std::ops::Range;

/// The bytes of a page, as an offset has them.
const P: u64 = PAGE as u64;
/// Where slabs and bodies end.
const E: u64 = SLABS_END;
const END: u64 = MOST_BODY as u64;
/// The largest creates.
const FULL: u32 = u32::MAX;

/// Marks that histories start with, by name.
const MARKS: [(&str, u64); 10] = [
    ("2^30", 1 << 30),
    ("2^30 + 16", (1 << 30) + 16),
    ("2^40 - 4,096", E - P),
    ("2^40 - 16", E - 16),
    ("2^40", E),
    ("2^40 + 16", E + 16),
    ("2^40 + 4,096", E + P),
    ("2^41 - 8,192", END - 2 * P),
    ("2^41 - 4,096", END - P),
    ("2^41", END),
];

/// Pages of a window before the mark and behind it, and at the start of the body.
const BEFORE: u64 = 24;
const BEHIND: u64 = 64;
const LOW: u64 = 16;

/// Histories with thousands of freed pages; random histories in the first round and in each other, and keys.
const SCATTERED: u64 = 8;
const FIRST: u64 = 600;
const ROUND: u64 = 20;
const KEYS: usize = 10;

/// The windows of a history: the start of the body, and what is around the mark.
fn windows(len: u64, mark: u64) -> Vec<Range<usize>> {
    let page = mark / P * P;
    let (from, to) = (page.saturating_sub(BEFORE * P), (page + BEHIND * P).min(len));
    vec![PAGE..(LOW * P) as usize, from as usize..to as usize]
}

/// Both books on large bodies, where the machine has the addresses, and what their histories met.
#[derive(Default)]
pub struct Large {
    far: Option<Far>,
    refused: bool,
    tally: Tally,
}

impl Large {
    /// Runs the histories of a round.
    pub fn compare(&mut self, seed: u64, round: u64, found: &mut Found) {
        if self.far.is_none() && !self.refused {
            self.far = Far::new();
            self.refused = self.far.is_none();
        }
        let Some(far) = &mut self.far else {
            println!("large: left out, since this machine refuses two ranges of 2^41 bytes");
            return;
        };
        let tally = &mut self.tally;
        let mut note = |ended: Result<u64, (u64, String)>, name: String| {
            let calls = *ended.as_ref().unwrap_or_else(|(calls, _)| calls);
            found.inputs += calls;
            found.calls += calls;
            if let Err((calls, what)) = ended {
                found.differs(Smallest { size: (calls as usize, 0), what, round, input: format!("{name}, call {calls}") });
            }
        };
        if round == 0 {
            for case in cases() {
                for (core, family) in [(false, "book"), (true, "core")] {
                    note(by_hand(far, tally, &case, core), format!("by hand, {family}: {}", case.name));
                }
            }
            note(judged(far, tally), "judged".into());
            for seed in 0..SCATTERED {
                note(scattered(far, tally, seed), format!("scattered, {seed}"));
            }
        }
        for number in 0..if round == 0 { FIRST } else { ROUND } {
            let rng = Rng(if round == 0 { number << 8 } else { seed ^ 0x1a26e << 44 ^ round << 24 ^ number << 8 });
            let name = format!("round {round}, history {number}");
            note(random(rng, far, tally, &name), name);
        }
    }

    /// Prints what was met, and tells how many kinds that must be met weren't.
    pub fn print(&self) -> u64 {
        if self.refused {
            return 0;
        }
        self.tally.print()
    }
}

/// Makes a call of a family on both books, and counts it.
fn make(far: &mut Far, tally: &mut Tally, call: &Call, core: bool, where_: &str) -> Result<Answer, String> {
    let word = call.key().and_then(|key| far.heads.get(key as usize)).copied().unwrap_or(0);
    let before = Before { state: far.state, word, creates: far.creates(word) };
    let answer = far.call(call, core, where_)?;
    tally.count(call, &before, &answer, far);
    Ok(answer)
}

/// Runs a history by hand by a family of calls; each call must be refused as it says.
fn by_hand(far: &mut Far, tally: &mut Tally, case: &Case, core: bool) -> Result<u64, (u64, String)> {
    far.begin(case.len as usize, KEYS, case.mark, windows(case.len, case.mark), 0xa5);
    (case.write)(far);
    far.copy_words();
    let mut made = 0;
    for (call, wanted) in &case.calls {
        made += 1;
        let answer = make(far, tally, call, core, &case.name).map_err(|what| (made, what))?;
        if answer.refusal != *wanted {
            return Err((made, format!("{call:?}: both answer {} in place of {wanted}", answer.refusal)));
        }
    }
    Ok(made)
}

/// Judges a book whose body is longer than 2^30 bytes, and the largest with a work list that is too short: a long enough one has 16 GiB.
fn judged(far: &mut Far, tally: &mut Tally) -> Result<u64, (u64, String)> {
    let len = (1 << 30) + P;
    for (mark, wanted) in [(len, 0), (len + P, 1)] {
        far.begin(len as usize, KEYS, mark, windows(len, len), 0);
        far.put_slab(0, 1, 1 << 30, &row(1, 3));
        far.put_free(8, &[4096]);
        far.copy_words();
        let verdict = far.check(MOST_WORK, LONG_CHECK).map_err(|what| (1, what))?;
        let lost = (len - P - P - 32) / 16;
        if verdict.map_or_else(|refusal| (refusal, 0), |v| (v.ground, v.lost)) != (wanted, if wanted == 0 { lost } else { 0 }) {
            return Err((1, format!("a check of a body past 2^30 is judged {verdict:?}, with {lost} lost units")));
        }
        tally.add(LONG_CHECK);
    }
    far.begin(MOST_BODY, KEYS, E, windows(END, E), 0);
    far.copy_words();
    for room in [0, 4096, MOST_WORK] {
        let verdict = far.check(room, SHORT_WORK).map_err(|what| (3, what))?;
        if verdict != Err(34) {
            return Err((3, format!("a check of 2^41 bytes with a work list of {room} is judged {verdict:?}")));
        }
        tally.add(SHORT_WORK);
    }
    Ok(5)
}

/// Where pages are freed in a scattered history, a part of the pages of each range, and the body's end; runs are sought up to so many
/// pages.
const RANGES: [u64; 3] = [1 << 31, 1 << 36, E - 2048 * P];
const RANGE: u64 = 4096;
const LONGEST: u64 = 16;

/// Loads of runs where thousands of pages are freed in ranges far apart, in random order, with pages to spare behind the mark or none.
fn scattered(far: &mut Far, tally: &mut Tally, seed: u64) -> Result<u64, (u64, String)> {
    let (mut rng, mark) = (Rng(seed << 8), RANGES[2] + RANGE * P);
    let len = mark + if seed.is_multiple_of(2) { 0 } else { BEHIND * P };
    let around = RANGES.map(|from| from as usize..(from + RANGE * P) as usize);
    let last = around[2].start..len as usize;
    far.begin(len as usize, KEYS, mark, vec![around[0].clone(), around[1].clone(), last], 0xa5);
    let all = RANGES.iter().flat_map(|from| (0..RANGE).map(move |page| from + page * P));
    let mut freed: Vec<u64> = all.filter(|_| rng.below(9) < 5).collect();
    (1..freed.len()).rev().for_each(|k| freed.swap(k, rng.below(k as u64 + 1) as usize));
    far.put_free(PAGE_CLASS, &freed);
    far.copy_words();
    let mut made = 0;
    for key in 0..KEYS as u64 {
        let pages = 1 + rng.below(LONGEST);
        let (fks, fit) = (lists::of_run(&mut rng, pages, false), rng.pick(&[Fit::Spare, Fit::Tight]));
        made += 1;
        make(far, tally, &Call::Load { key, fks, fit }, rng.below(2) == 0, "scattered").map_err(|what| (made, what))?;
        if rng.below(3) == 0 {
            made += 1;
            make(far, tally, &Call::Drop { key }, rng.below(2) == 0, "scattered").map_err(|what| (made, what))?;
        }
    }
    tally.add(SCATTERED_FREED);
    Ok(made)
}

#[cfg(test)]
mod tests {
    use super::*;

    /// The histories by hand and some random ones, on which both books agree.
    #[test]
    fn large_books_agree() {
        let (mut large, mut found) = (Large::default(), Found::default());
        large.compare(1, 0, &mut found);
        assert!(found.differ == 0, "{}", found.smallest.map_or(String::new(), |s| format!("{}; {}", s.what, s.input)));
        assert_eq!(large.print(), 0);
    }
}
