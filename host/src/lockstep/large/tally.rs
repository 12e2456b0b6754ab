//! What histories on large bodies met, and how often.
use crate::lockstep::far::{end_of, Far};
use crate::lockstep::large::{E, END, FULL, MARKS, P};
use crate::lockstep::pair::{Answer, Call, KINDS};
use crate::second_book::space::{State, PAGE_CLASS};
use crate::second_book::{class_by_bytes, class_with_slot, goes_to_pages, Fit};
use oracle::scripthash_layout::{unpack8, ShHeadValue};
use std::collections::BTreeMap;

/// Gaps before pages, by where they end.
const GAPS: [&str; 3] = ["a gap carved before 2^40", "a gap carved up to 2^40", "a gap past 2^40, on no list"];
/// Runs out of freed pages, by where they begin and end.
type Range = fn(u64, u64) -> bool;
const OUT_OF_FREED: [(&str, Range); 5] = [
    ("a run out of freed pages, below 2^30", |_, end| end <= 1 << 30),
    ("a run out of freed pages, across 2^30", |off, end| off < 1 << 30 && end > 1 << 30),
    ("a run out of freed pages, across 2^40", |off, end| off < E && end > E),
    ("a run out of freed pages, of several past 2^40", |off, end| off >= E && end - off > P),
    ("a run out of freed pages, up to 2^41", |_, end| end == END),
];
/// Runs out of thousands of freed pages.
pub const SCATTERED_FREED: &str = "runs where some 6,800 freed pages lie in three ranges up to 2^40";
/// What is judged.
pub const LONG_CHECK: &str = "a check of a body past 2^30";
pub const SHORT_WORK: &str = "34: a check of 2^41 bytes with a work list that is too short";

/// What was before a call: the state, the key's word, and creates where it is in pages.
pub struct Before {
    pub state: State,
    pub word: u64,
    pub creates: Option<u32>,
}

/// Which block a call takes or wants: its class, and where it is if it was taken; of a run the first page.
struct Block {
    class: u8,
    off: Option<u64>,
    pages: u64,
}

/// The totals that appends meet, by name.
const TOTALS: [(&str, u32); 3] = [("2^32 - 2", FULL - 1), ("2^32 - 1", FULL), ("0", 0)];

/// Counts of what was met.
#[derive(Default)]
pub struct Tally(BTreeMap<String, u64>);

impl Tally {
    /// Counts a kind.
    pub fn add(&mut self, kind: impl Into<String>) {
        *self.0.entry(kind.into()).or_default() += 1;
    }

    /// The block that a call takes or wants.
    fn block(call: &Call, before: &Before, answer: &Answer, far: &Far) -> Option<Block> {
        let taken = answer.refusal == 0;
        let (word, moved) = match call {
            Call::Load { fks, .. } if fks.len() < 2 => return None,
            Call::Load { key, .. } => (far.heads[*key as usize], true),
            Call::Append { key, .. } => (far.heads[*key as usize], answer.told[4] > 0),
            _ => return None,
        };
        if taken {
            let pages = if matches!(call, Call::Load { .. }) { answer.told[0] } else { 1 };
            return match unpack8(word).expect("a word that a call wrote") {
                ShHeadValue::Slab { class, off, .. } if moved => Some(Block { class, off: Some(off), pages: 0 }),
                ShHeadValue::Extent { last_page } if moved || word != before.word => {
                    Some(Block { class: PAGE_CLASS, off: Some(last_page + P - pages * P), pages })
                }
                _ => None,
            };
        }
        let wanted = |class: u8| Some(Block { class, off: None, pages: 1 });
        match call {
            Call::Load { fks, .. } if goes_to_pages(fks) => wanted(PAGE_CLASS),
            Call::Load { fks, fit: Fit::Spare, .. } => wanted(class_with_slot(fks)),
            Call::Load { fks, .. } => wanted(class_by_bytes(fks)),
            _ if before.word >> 62 == 3 || goes_to_pages(&far.second.list) => wanted(PAGE_CLASS),
            _ => wanted(class_with_slot(&far.second.list)),
        }
    }

    /// Counts a call by what was before it and what it answered.
    pub fn count(&mut self, call: &Call, before: &Before, answer: &Answer, far: &Far) {
        let name = KINDS[call.kind()];
        match answer.refusal {
            0 => self.accepted(call, before, answer, far),
            35 | 36 => {
                let block = Tally::block(call, before, answer, far).expect("a call that takes a block");
                let (mark, head) = (before.state.mark, before.state.free[block.class as usize]);
                let room = mark.next_multiple_of(P) + P <= far.len as u64;
                if answer.refusal == 35 && end_of(block.class, head) <= mark {
                    self.add(format!("35: a freed slab that ends past 2^40, by {name}"));
                } else if answer.refusal == 36 && block.class < PAGE_CLASS && end_of(block.class, mark) > E && room {
                    self.add(format!("36: a slab past 2^40, where pages are to be had, by {name}"));
                } else if answer.refusal == 36 && block.class == PAGE_CLASS && far.len as u64 == END {
                    self.add(format!("36: pages past 2^41, by {name}"));
                }
            }
            31 if before.creates.is_some_and(|c| c >= FULL - 1) => {
                self.add(format!("31: a total near 2^32 that isn't the length, by {name}"))
            }
            _ => {}
        }
    }

    fn accepted(&mut self, call: &Call, before: &Before, answer: &Answer, far: &Far) {
        let name = KINDS[call.kind()];
        if let Some(block) = Tally::block(call, before, answer, far) {
            self.took(name, call, before, &block);
        }
        let (held, appends) = (unpack8(before.word), matches!(call, Call::Append { .. }));
        let grows = appends || matches!(call, Call::Extend { .. });
        match held {
            Ok(ShHeadValue::Slab { class, off, .. }) if end_of(class, off) > E => {
                let how = if appends && answer.told[4] > 0 { ", which moves" } else { "" };
                self.add(format!("a slab across 2^40: {name}{how}"));
            }
            Ok(ShHeadValue::Extent { last_page }) if last_page >= E => self.add(format!("pages past 2^40: {name}")),
            _ => {}
        }
        for (total, creates) in TOTALS {
            if grows && before.creates == Some(creates) {
                let how = if far.heads[call.key().unwrap_or(0) as usize] == before.word { "in place" } else { "on a new page" };
                self.add(format!("creates {total}: {name} {how}"));
            }
        }
    }

    /// Counts a block that was taken.
    fn took(&mut self, name: &str, call: &Call, before: &Before, block: &Block) {
        let (mark, off) = (before.state.mark, block.off.expect("a block that was taken"));
        let run = matches!(call, Call::Load { .. }) && block.class == PAGE_CLASS;
        let popped = if run { off < mark } else { before.state.free[block.class as usize] != 0 };
        let end = off + (block.pages * P).max(end_of(block.class, off) - off);
        match (block.class, popped) {
            (PAGE_CLASS, true) if run => OUT_OF_FREED.iter().filter(|kind| kind.1(off, end)).for_each(|kind| self.add(kind.0)),
            (PAGE_CLASS, true) if off >= E => self.add("a freed page past 2^40, taken again"),
            (PAGE_CLASS, true) => {}
            (PAGE_CLASS, false) => {
                if off < E && end > E {
                    self.add("a run across 2^40");
                }
                if off >= E {
                    let chain = if before.creates.is_some() { " to a chain" } else { "" };
                    self.add(format!("pages from the mark past 2^40, by {name}{chain}"));
                }
                if end == END {
                    self.add("pages up to 2^41");
                }
                let rounded = mark.next_multiple_of(P);
                if rounded > mark {
                    self.add(GAPS[if rounded < E { 0 } else { 1 + usize::from(rounded > E) }]);
                }
            }
            (class, true) if mark > E => self.add(format!("a freed slab of class {class}, taken where the mark is past 2^40")),
            (_, true) => {}
            (class, false) if end == E => self.add(format!("a slab of class {class} from the mark up to 2^40, by {name}")),
            _ => {}
        }
    }

    /// All that must be met.
    fn kinds() -> Vec<String> {
        let mut out: Vec<String> = MARKS.iter().map(|(name, _)| format!("a start with the mark at {name}")).collect();
        out.extend(GAPS.map(String::from));
        for name in ["load", "tight load", "append"] {
            out.push(format!("35: a freed slab that ends past 2^40, by {name}"));
            out.push(format!("36: a slab past 2^40, where pages are to be had, by {name}"));
            out.push(format!("36: pages past 2^41, by {name}"));
            out.push(format!("pages from the mark past 2^40, by {name}"));
        }
        out.push("pages from the mark past 2^40, by append to a chain".into());
        out.extend((0..8).map(|class| format!("a slab of class {class} from the mark up to 2^40, by load")));
        out.extend((0..8).map(|class| format!("a slab of class {class} from the mark up to 2^40, by tight load")));
        out.push("a slab of class 0 from the mark up to 2^40, by append".into());
        out.extend((0..8).map(|class| format!("a freed slab of class {class}, taken where the mark is past 2^40")));
        for how in ["append", "append, which moves", "extend", "read", "drop"] {
            out.push(format!("a slab across 2^40: {how}"));
        }
        for how in ["append", "extend", "read", "drop"] {
            out.push(format!("pages past 2^40: {how}"));
        }
        for what in ["a freed page past 2^40, taken again", "a run across 2^40", "pages up to 2^41"] {
            out.push(what.into());
        }
        out.extend(OUT_OF_FREED.map(|kind| kind.0.into()));
        for (total, _) in TOTALS {
            out.extend(["in place", "on a new page"].map(|how| format!("creates {total}: append {how}")));
            out.extend(["in place", "on a new page"].map(|how| format!("creates {total}: extend {how}")));
        }
        out.extend(["read", "drop"].map(|name| format!("31: a total near 2^32 that isn't the length, by {name}")));
        out.extend([LONG_CHECK, SHORT_WORK, SCATTERED_FREED].map(String::from));
        out
    }

    /// Prints what was met, and tells how many kinds that must be met weren't.
    pub fn print(&self) -> u64 {
        let kinds = Tally::kinds();
        let met = |kind: &String| self.0.get(kind).copied().unwrap_or(0);
        kinds.iter().for_each(|kind| println!("  {:>10} {kind}", met(kind)));
        let others = self.0.iter().filter(|(kind, _)| !kinds.contains(kind));
        others.for_each(|(kind, n)| println!("  {n:>10} {kind}, which need not be met"));
        let unmet: Vec<&String> = kinds.iter().filter(|kind| met(kind) == 0).collect();
        unmet.iter().for_each(|kind| println!("not met: {kind}"));
        println!("{} of {} kinds met", kinds.len() - unmet.len(), kinds.len());
        unmet.len() as u64
    }
}
