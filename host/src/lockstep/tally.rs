//! What the histories met, and how often: calls, refusals and their grounds, moves between classes, blocks taken and given back, chains;
//! and of starts the verdicts, the faults, and what is foreign about them.
use crate::lockstep::desk_tally::{in_shape, Desks, Taken, TAKES};
use crate::lockstep::extend_tally::Extends;
use crate::lockstep::pair::{Answer, Call, Given, Pair, EXTEND, FAMILIES, KINDS};
use crate::lockstep::run_tally::{pages_of_run, Runs, Wanted};
use crate::lockstep::spoiled::SPOILS;
use crate::lockstep::starts::{Foreign, FOREIGN};
use crate::second_book::keys::{Ground, GROUNDS};
use crate::second_book::runs::lowest;
use crate::second_book::space::{State, PAGE};
use crate::second_book::start::{Verdict, FAULTS};
use crate::second_book::{class_by_bytes, class_with_slot, goes_to_pages, payload_len, Fit, Refused};
use oracle::scripthash_layout::{unpack8, ShHeadValue};
use oracle::scripthash_pages as pages;
use std::collections::{BTreeMap, BTreeSet};

/// The refusals that each kind of call can give, and 0 for accepted, by families: the core makes no book, and its reads are told nothing of
/// desks.
const REFUSALS: [[&[u32]; KINDS.len()]; FAMILIES.len()] = [
    [&[0, 1, 39], OF_LOADS, OF_APPENDS, &[0, 1, 2, 31, 34, 39], OF_DROPS, OF_LOADS, OF_EXTENDS],
    [&[], OF_LOADS, OF_APPENDS, &[0, 1, 2, 31, 34], OF_DROPS, OF_LOADS, OF_EXTENDS],
];
const OF_LOADS: &[u32] = &[0, 1, 2, 3, 10, 12, 13, 14, 32, 35, 36, 39, 40, 41, 42];
const OF_APPENDS: &[u32] = &[0, 1, 2, 12, 13, 14, 31, 32, 35, 36, 39, 40, 41];
const OF_DROPS: &[u32] = &[0, 1, 2, 31, 39];
const OF_EXTENDS: &[u32] = &[0, 1, 2, 31, 39];

/// The two kinds of loads, and the classes of slabs that each takes by the class of a list's bytes: with a spare slot up to two more, since a
/// number has a byte or more where a slot has four, and 256 slots are those of class 6.
const FITS: [(usize, [&[usize]; 8]); 2] = [
    (1, [&[0, 1, 2], &[1, 2, 3], &[2, 3, 4], &[3, 4, 5], &[4, 5, 6], &[5, 6], &[6], &[7]]),
    (5, [&[0], &[1], &[2], &[3], &[4], &[5], &[6], &[7]]),
];

/// The counts and the bytes of payloads on both sides of where the class of a load changes.
const COUNTS: [usize; 16] = [2, 3, 4, 7, 8, 15, 16, 31, 32, 63, 64, 127, 128, 255, 256, 257];
const PAYLOADS: [usize; 16] = [16, 17, 32, 33, 64, 65, 128, 129, 256, 257, 512, 513, 1024, 1025, 2048, 2049];

/// The moves that lists can make: from inline (0) or a class (1 to 8), to classes and pages (8). Two numbers have at most 20 bytes of payload.
/// A slab that was loaded tight has up to 16 numbers for every 4 slots, so that it goes up by one class or two; with padded forms it
/// may stay in its class or go down by one. More than 256 numbers, or 2,048 bytes, come from classes 5 to 7 alone.
const MOVES: [&[usize]; 9] =
    [&[0, 1], &[0, 1, 2], &[1, 2, 3], &[1, 2, 3, 4], &[2, 3, 4, 5], &[3, 4, 5, 6], &[4, 5, 6, 8], &[5, 6, 7, 8], &[6, 7, 8]];

/// Bounds of the numbers of pages by which chains are told apart.
const CHAINS: [u64; 7] = [1, 2, 3, 5, 9, 17, 33];

/// What is done to a key whose total was never counted.
const UNKNOWN: [&str; 4] = ["an append that stays in its last page", "an append that begins a page", "a read", "a drop"];

/// What a read can find padded, some of a list or all of it: a slab, a page, a chain of several.
const PADDED: [&str; 6] =
    ["some of a slab", "all of a slab", "some of one page", "all of one page", "some of several pages", "all of several pages"];

/// What an append does to the largest total, which four bytes hold.
const FULL_TOTAL: &str = "a total of 2^32 - 1: an append, after which it is unknown";

/// What is judged as a start.
pub const FRESH_BOOK: &str = "a fresh book";
pub const USED_BOOK: &str = "a book after calls";
pub const DAMAGED_BOOK: &str = "a damaged book";
pub const FOREIGN_START: &str = "a foreign start";
pub const FOREIGN_BOOK: &str = "a foreign start after calls";
pub const SPOILED_START: &str = "a spoiled start";

/// What judgements must be met: of what, and the ground or the refusal.
const GOOD: &[&str] = &[FRESH_BOOK, USED_BOOK, DAMAGED_BOOK, FOREIGN_START, FOREIGN_BOOK, SPOILED_START];
const BAD: &[&str] = &[DAMAGED_BOOK, SPOILED_START];

/// The name of a class.
fn class_name(class: usize) -> String {
    if class == 8 {
        "page".into()
    } else {
        format!("class {class}")
    }
}

/// Where a list was before a move.
fn from_name(from: usize) -> String {
    if from == 0 {
        "inline".into()
    } else {
        class_name(from - 1)
    }
}

/// The last bound that a number of pages reaches.
fn chain_name(pages: u64) -> String {
    let at = CHAINS.iter().rposition(|c| *c <= pages).expect("a chain has a page");
    match CHAINS.get(at + 1) {
        Some(next) if next - 1 == CHAINS[at] => format!("{}", CHAINS[at]),
        Some(next) => format!("{} to {}", CHAINS[at], next - 1),
        None => format!("{} and more", CHAINS[at]),
    }
}

/// Counts of what was met.
#[derive(Default)]
pub struct Tally {
    refusals: [[BTreeMap<u32, u64>; KINDS.len()]; FAMILIES.len()],
    grounds: BTreeMap<(Ground, &'static str), u64>,
    moves: [[u64; 9]; 9],
    stays: [u64; 9],
    at_mark: [u64; 9],
    reused: [u64; 9],
    carved: [u64; 9],
    dropped: [u64; 9],
    grown: u64,
    read: BTreeMap<String, u64>,
    padded: [u64; PADDED.len()],
    loaded: BTreeMap<String, u64>,
    /// Loads by their kind: to slabs by the class of their bytes and the class taken, by counts, and by payloads.
    fitted: BTreeMap<(usize, usize, usize), u64>,
    counts: BTreeMap<(usize, usize), u64>,
    payloads: BTreeMap<(usize, usize), u64>,
    pub desks: Desks,
    runs: Runs,
    extends: Extends,
    unknown: BTreeMap<&'static str, u64>,
    full_total: u64,
    pub damages: BTreeMap<&'static str, u64>,
    /// Verdicts by what was judged and by their words, faults and foreign things, and in what ways starts were spoiled.
    judged: BTreeMap<(&'static str, String), u64>,
    faults: BTreeMap<&'static str, u64>,
    foreign: BTreeMap<Foreign, u64>,
    pub spoils: BTreeMap<&'static str, u64>,
}

/// A verdict or refusal in words.
fn verdict_name(judged: &Result<Verdict, u32>) -> String {
    match judged {
        Ok(v) if v.ground == 0 => "good".into(),
        Ok(v) => format!("of ground {}", v.ground),
        Err(refusal) => format!("refused by {refusal}"),
    }
}

/// What a book was before a call: its state, the word of the key, and the total that the key's last page tells; 0 says that it was never
/// counted. Of a load also the freed pages.
pub struct Before {
    pub state: State,
    pub word: u64,
    pub total: Option<u32>,
    pub freed: Result<Vec<u64>, Refused>,
}

/// Creates of the page of a body that a word names.
pub fn total_of(body: &[u8], word: u64) -> Option<u32> {
    let Ok(ShHeadValue::Extent { last_page }) = unpack8(word) else {
        return None;
    };
    let page = usize::try_from(last_page).ok().and_then(|off| body.get(off..off.checked_add(PAGE)?));
    page.map(|page| pages::sh_page_extent_creates(pages::sh_page_as_array(page).expect("a page")))
}

/// Whether a load's run comes from freed pages.
fn sought(call: &Call, before: &Before) -> bool {
    before.freed.as_ref().is_ok_and(|freed| lowest(freed, pages_of_run(call)).is_some())
}

impl Tally {
    /// Counts a call by what was before it and what it answered.
    pub fn count(&mut self, call: &Call, given: Given, before: &Before, answer: &Answer, pair: &Pair) {
        let kind = call.kind();
        *self.refusals[given.family()][kind].entry(answer.refusal).or_default() += 1;
        let takes = Tally::takes(call, given, before, answer, pair);
        self.desks.count(call, given, &before.state, takes.as_ref(), answer, pair);
        if takes.is_some_and(|taken| taken.what.run) {
            let wanted = Wanted { family: FAMILIES[given.family()], state: &before.state, freed: &before.freed, body: given.body };
            self.runs.count(call, &wanted, answer);
        }
        if let Some(Refused::Unsound(ground)) = pair.refused {
            *self.grounds.entry((ground, KINDS[kind])).or_default() += 1;
        }
        if answer.refusal != 0 {
            return;
        }
        if let Call::Extend { fks, .. } = call {
            return self.extends.count(FAMILIES[given.family()], fks.len(), before, answer, &pair.state);
        }
        match (before.total, call) {
            (Some(0), _) => *self.unknown.entry(Tally::uncounted(call, before, answer)).or_default() += 1,
            (Some(u32::MAX), Call::Append { .. }) => self.full_total += 1,
            _ => {}
        }
        match call {
            Call::Load { key, fks, .. } => {
                self.loaded(answer.told[0], before, pair.heads[*key as usize], &pair.state);
                self.fitted(kind, fks, pair.heads[*key as usize]);
            }
            Call::Append { .. } => self.appended(before, answer),
            Call::Read { .. } => {
                self.padded(answer);
                if answer.told[1] > 0 {
                    *self.read.entry(chain_name(answer.told[1])).or_default() += 1;
                }
            }
            Call::Drop { .. } => self.dropped(before, pair),
            _ => {}
        }
    }

    /// Counts a read by what it found padded.
    pub fn padded(&mut self, read: &Answer) {
        let [length, pages, padded, ..] = read.told;
        if padded > 0 {
            self.padded[2 * pages.min(2) as usize + usize::from(padded == length)] += 1;
        }
    }

    /// What was done to a key whose total was never counted.
    fn uncounted(call: &Call, before: &Before, answer: &Answer) -> &'static str {
        match (call, unpack8(before.word)) {
            (Call::Append { .. }, Ok(ShHeadValue::Extent { last_page })) if last_page != answer.told[3] => UNKNOWN[1],
            (Call::Append { .. }, _) => UNKNOWN[0],
            (Call::Read { .. }, _) => UNKNOWN[2],
            _ => UNKNOWN[3],
        }
    }

    /// What a call took, or wanted to take: none where it took nothing, or was turned back before. One that 1 turns back for its counts, as the
    /// core's can be, wanted it.
    pub fn takes(call: &Call, given: Given, before: &Before, answer: &Answer, pair: &Pair) -> Option<Taken> {
        let chain = matches!(unpack8(before.word), Ok(ShHeadValue::Extent { .. }));
        let took = match (call, answer.refusal) {
            (Call::Load { fks, .. }, 0) => fks.len() > 1,
            (Call::Append { .. }, 0) if chain => before.word & !(3 << 62) != answer.told[3],
            (Call::Append { .. }, 0) => answer.told[4] > 0,
            (Call::Load { .. } | Call::Append { .. }, 1) => given.family() == 1 && in_shape(given, before.state.mark),
            (Call::Load { .. } | Call::Append { .. }, refusal) => matches!(refusal, 35 | 36 | 40 | 41 | 42),
            _ => false,
        };
        let list = &pair.second.list;
        let taken = |what: usize, class: u8| {
            let popped = before.state.free[usize::from(class)] != 0;
            Some(Taken { what: &TAKES[what], class: class.into(), freed: if TAKES[what].run { sought(call, before) } else { popped } })
        };
        match call {
            _ if !took => None,
            Call::Append { .. } if chain => taken(4, 8),
            Call::Append { .. } if goes_to_pages(list) => taken(3, 8),
            Call::Append { .. } => taken(2, class_with_slot(list)),
            Call::Load { fks, .. } if goes_to_pages(fks) => taken(1, 8),
            Call::Load { fks, fit: Fit::Spare, .. } => taken(0, class_with_slot(fks)),
            Call::Load { fks, .. } => taken(0, class_by_bytes(fks)),
            _ => None,
        }
    }

    /// Counts where a block of a class came from.
    fn took(&mut self, class: usize, before: &Before) {
        if before.state.free[class] != 0 {
            self.reused[class] += 1;
        } else {
            self.at_mark(class, before);
        }
    }

    /// Counts a block or a run at the mark, and what the gap before pages was carved into.
    fn at_mark(&mut self, class: usize, before: &Before) {
        self.at_mark[class] += 1;
        if class == 8 {
            self.carved(before.state.mark.next_multiple_of(4096) - before.state.mark);
        }
    }

    /// Counts the blocks of a gap.
    fn carved(&mut self, gap: u64) {
        let mut left = gap;
        for class in (0..8).rev() {
            self.carved[class] += left / (16 << class);
            left %= 16 << class;
        }
    }

    fn loaded(&mut self, pages: u64, before: &Before, word: u64, after: &State) {
        match unpack8(word) {
            Ok(ShHeadValue::Slab { class, .. }) => self.took(class as usize, before),
            Ok(ShHeadValue::Extent { .. }) => {
                if after.counts.freed < before.state.counts.freed {
                    self.reused[8] += pages;
                } else {
                    self.at_mark(8, before);
                }
                *self.loaded.entry(chain_name(pages)).or_default() += 1;
            }
            _ => {}
        }
    }

    /// Counts how a load of a kind fits its list.
    fn fitted(&mut self, kind: usize, fks: &[u64], word: u64) {
        *self.counts.entry((kind, fks.len())).or_default() += 1;
        if fks.len() <= *COUNTS.last().expect("a count") {
            *self.payloads.entry((kind, payload_len(fks))).or_default() += 1;
        }
        if let Ok(ShHeadValue::Slab { class, .. }) = unpack8(word) {
            *self.fitted.entry((kind, class_by_bytes(fks) as usize, class as usize)).or_default() += 1;
        }
    }

    fn appended(&mut self, before: &Before, answer: &Answer) {
        let [kind, class, _, place, rewritten, ..] = answer.told;
        let to = if kind == 3 { 8 } else { class as usize };
        match unpack8(before.word) {
            Ok(ShHeadValue::Slab { class: from, .. }) if rewritten > 0 => {
                self.moves[1 + from as usize][to] += 1;
                self.took(to, before);
            }
            Ok(ShHeadValue::Inline { .. }) => {
                self.moves[0][to] += 1;
                self.took(to, before);
            }
            Ok(ShHeadValue::Slab { class, .. }) => self.stays[class as usize] += 1,
            Ok(ShHeadValue::Extent { last_page }) if last_page != place => {
                self.grown += 1;
                self.took(8, before);
            }
            Ok(ShHeadValue::Extent { .. }) => self.stays[8] += 1,
            _ => {}
        }
    }

    fn dropped(&mut self, before: &Before, pair: &Pair) {
        match unpack8(before.word) {
            Ok(ShHeadValue::Slab { class, .. }) => self.dropped[class as usize] += 1,
            Ok(ShHeadValue::Extent { .. }) => self.dropped[8] += pair.second.key.pages.len() as u64,
            _ => {}
        }
    }

    /// Counts a judgement of what was judged.
    pub fn judged(&mut self, when: &'static str, judged: &Result<Verdict, u32>) {
        *self.judged.entry((when, verdict_name(judged))).or_default() += 1;
        if let Some(fault) = judged.ok().and_then(|v| v.fault) {
            *self.faults.entry(fault).or_default() += 1;
        }
    }

    /// Counts what is foreign about a good start.
    pub fn foreign(&mut self, met: &BTreeSet<Foreign>) {
        met.iter().for_each(|what| *self.foreign.entry(what).or_default() += 1);
    }

    /// All of judgements that must be met, with how often it was.
    fn start_kinds(&self) -> Vec<(String, u64)> {
        let of = |when: &'static str, name: String| {
            let n = self.judged.get(&(when, name.clone())).copied().unwrap_or(0);
            (format!("judged {name}: {when}"), n)
        };
        let mut out: Vec<(String, u64)> = GOOD.iter().map(|when| of(when, "good".into())).collect();
        for when in BAD {
            out.extend((1..=10).map(|ground| of(when, format!("of ground {ground}"))));
        }
        for when in GOOD {
            out.extend([1, 34, 39].map(|refusal| of(when, format!("refused by {refusal}"))));
        }
        let mut met = |name: &str, list: &[&'static str], counts: &BTreeMap<&'static str, u64>| {
            out.extend(list.iter().map(|what| (format!("{name}: {what}"), counts.get(what).copied().unwrap_or(0))));
        };
        met("a start's fault", FAULTS, &self.faults);
        met("a good start with", FOREIGN, &self.foreign);
        met("a start spoiled by", &SPOILS.iter().map(|s| s.0).collect::<Vec<_>>(), &self.spoils);
        out
    }

    /// Loads at the bounds of classes, that must be met, with how often each was.
    fn load_kinds(&self) -> Vec<(String, u64)> {
        let mut out = Vec::new();
        for (kind, _) in FITS {
            let name = KINDS[kind];
            out.extend(COUNTS.map(|n| (format!("{name} of {n} numbers"), self.counts.get(&(kind, n)).copied().unwrap_or(0))));
            out.extend(
                PAYLOADS.map(|n| (format!("{name} of a payload of {n} bytes"), self.payloads.get(&(kind, n)).copied().unwrap_or(0))),
            );
        }
        out
    }

    /// Reads of padded numbers that must be met, with how often each was. Histories that are written down don't tell of them.
    fn padded_kinds(&self) -> Vec<(String, u64)> {
        PADDED.iter().zip(self.padded).map(|(what, n)| (format!("padded, by a read: {what}"), n)).collect()
    }

    /// How often each kind of call met a ground.
    fn of_ground<'a>(&'a self, ground: &'a str) -> impl Iterator<Item = (&'static str, u64)> + 'a {
        self.grounds.iter().filter(move |((g, _), _)| *g == ground).map(|((_, kind), n)| (*kind, *n))
    }

    /// All of calls that must be met, with how often it was.
    pub fn kinds(&self) -> Vec<(String, u64)> {
        let mut out = Vec::new();
        for (family, kind) in (0..FAMILIES.len()).flat_map(|family| (0..KINDS.len()).map(move |kind| (family, kind))) {
            for &refusal in REFUSALS[family][kind] {
                let what = if refusal == 0 { "accepted".into() } else { format!("refused by {refusal}") };
                let met = self.refusals[family][kind].get(&refusal).copied().unwrap_or(0);
                out.push((format!("{}{} {what}", FAMILIES[family], KINDS[kind]), met));
            }
        }
        out.extend(self.desks.kinds());
        out.extend(self.runs.kinds());
        for ground in GROUNDS {
            out.push((format!("31: {ground}"), self.of_ground(ground).map(|(_, n)| n).sum()));
        }
        for (from, to) in MOVES.iter().enumerate() {
            to.iter().for_each(|&to| out.push((format!("moves from {} to {}", from_name(from), class_name(to)), self.moves[from][to])));
        }
        for (kind, by_bytes, to) in FITS.iter().flat_map(|(kind, taken)| taken.iter().enumerate().map(move |(by, to)| (*kind, by, to))) {
            for &to in *to {
                let n = self.fitted.get(&(kind, by_bytes, to)).copied().unwrap_or(0);
                out.push((format!("{} of the bytes of class {by_bytes} to class {to}", KINDS[kind]), n));
            }
        }
        for class in 0..9 {
            let name = class_name(class);
            let place = if class == 8 { "in pages".into() } else { format!("in a slab of {name}") };
            out.push((format!("appends that stay {place}"), self.stays[class]));
            out.push((format!("taken at the mark, alone or in a run: {name}"), self.at_mark[class]));
            out.push((format!("taken of those freed: {name}"), self.reused[class]));
            out.push((format!("given back by a drop: {name}"), self.dropped[class]));
            if class < 8 {
                out.push((format!("carved from a gap: {name}"), self.carved[class]));
            }
        }
        out.push(("chains that grow by a page".into(), self.grown));
        for bound in CHAINS {
            let name = chain_name(bound);
            out.push((format!("pages walked by a read: {name}"), self.read.get(&name).copied().unwrap_or(0)));
            out.push((format!("pages of a load: {name}"), self.loaded.get(&name).copied().unwrap_or(0)));
        }
        for what in UNKNOWN {
            out.push((format!("a total that was never counted: {what}"), self.unknown.get(what).copied().unwrap_or(0)));
        }
        out.push((FULL_TOTAL.into(), self.full_total));
        out
    }

    /// Those of them that histories can meet which are written down: they have no extends.
    pub fn written_kinds(&self) -> Vec<(String, u64)> {
        self.kinds().into_iter().filter(|(name, _)| !name.contains(KINDS[EXTEND])).collect()
    }

    /// Prints how often each was met, and tells how many that must be weren't.
    pub fn print(&self) -> u64 {
        let mut kinds = self.kinds();
        kinds.extend(self.extends.kinds());
        kinds.extend(self.load_kinds());
        kinds.extend(self.padded_kinds());
        kinds.extend(self.start_kinds());
        for (name, n) in &kinds {
            let by: Vec<String> = self.of_ground(name.trim_start_matches("31: ")).map(|(kind, n)| format!("{kind} {n}")).collect();
            println!("  {n:>10} {name}{}", if by.is_empty() { String::new() } else { format!(" ({})", by.join(", ")) });
        }
        for (from, to) in (0..9).flat_map(|from| (0..9).map(move |to| (from, to))) {
            if self.moves[from][to] > 0 && !MOVES[from].contains(&to) {
                println!(
                    "  {:>10} moves from {} to {}, by a damaged or foreign word",
                    self.moves[from][to],
                    from_name(from),
                    class_name(to)
                );
            }
        }
        for (family, kind) in (0..FAMILIES.len()).flat_map(|family| (0..KINDS.len()).map(move |kind| (family, kind))) {
            let others = self.refusals[family][kind].iter().filter(|(r, _)| !REFUSALS[family][kind].contains(r));
            others.for_each(|(r, n)| println!("  {n:>10} {}{} refused by {r}, which it never should be", FAMILIES[family], KINDS[kind]));
        }
        self.damages.iter().for_each(|(name, n)| println!("  {n:>10} damaged: {name}"));
        let unmet: Vec<&str> = kinds.iter().filter(|k| k.1 == 0).map(|k| &k.0[..]).collect();
        unmet.iter().for_each(|name| println!("not met: {name}"));
        println!("{} of {} kinds met", kinds.len() - unmet.len(), kinds.len());
        unmet.len() as u64
    }
}
