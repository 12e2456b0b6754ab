//! What histories met of desks, and how often: each ground of 1, 31, 35 and 39, what was refused by 36, 40 and 41, and takes at the limits.
use crate::lockstep::pair::{Answer, Call, Given, Pair, EXTEND, FAMILIES, KINDS};
use crate::second_book::desks::{list_fits, pages_of, past, By, Counts, Limits, DESKS};
use crate::second_book::space::{State, HELD_BY_DESK};
use crate::second_book::Refused;
use std::collections::BTreeMap;

/// What calls take: its name, whether it is a slab, and whether it is a run, which is sought among those freed; others are popped.
pub struct Kind {
    name: &'static str,
    slab: bool,
    pub run: bool,
}

pub const TAKES: [Kind; 5] = [
    Kind { name: "a slab for a load", slab: true, run: false },
    Kind { name: "a run for a load", slab: false, run: true },
    Kind { name: "a slab for a list that moves", slab: true, run: false },
    Kind { name: "a page for a list that moves", slab: false, run: false },
    Kind { name: "a page for a chain", slab: false, run: false },
];

/// What a call took, or wanted to take, its class, and whether it comes from those freed.
pub struct Taken {
    pub what: &'static Kind,
    pub class: usize,
    pub freed: bool,
}

impl Taken {
    /// Its name, with where it comes from.
    fn said(&self) -> String {
        self.what.said(FROM[usize::from(self.freed)])
    }
}

impl Kind {
    fn said(&self, from: &str) -> String {
        format!("{} {from}", self.name)
    }
}

/// Where a take comes from.
const FROM: [&str; 2] = ["at the mark", "of those freed"];

/// Why a list of desks is turned back.
const LISTS: [&str; 4] = ["too short", "too long", "with a byte above 15, the key's", "with a byte above 15, another key's"];
/// Why the counts are above the body's pages.
const HIGH: [&str; 3] = ["freed pages", "a desk's pages", "a reserve"];
/// Why a making is turned back for its limits.
const MAKINGS: [&str; 3] =
    ["1: a reserve above the body's pages", "39: reserves above the pages to be had", "39: a reserve above its ceiling"];
/// What of free head and freed pages is 0 alone.
const PARTED: [&str; 2] = ["freed pages without a free head", "a free head without freed pages"];

/// A take that was made, at the limits.
const LAST_PAGE: &str = "that leaves just what the desks lack";
const LACK_FALLS: &str = "that only the taker's own lack allows";
const OF_RESERVE: &str = "by a desk below its reserve";
const TO_CEILING: &str = "up to the desk's ceiling";

/// What both families answered on one state.
const TWINS: [&str; 2] = ["accepted", "refused"];

/// Counts of what was met.
#[derive(Default)]
pub struct Desks(BTreeMap<String, u64>);

/// Why a list is turned back.
fn of_list(list: &[u8], heads: usize, key: Option<u64>) -> &'static str {
    let high = |desk: &u8| usize::from(*desk) >= DESKS;
    match list.len().cmp(&heads) {
        std::cmp::Ordering::Less => LISTS[0],
        std::cmp::Ordering::Greater => LISTS[1],
        _ if key.and_then(|key| list.get(key as usize)).is_some_and(high) => LISTS[2],
        _ => LISTS[3],
    }
}

/// The counts above the body's pages, by name.
fn too_high(body: usize, counts: &Counts) -> Option<&'static str> {
    let most = pages_of(body);
    let high = [counts.freed > most, counts.held.iter().any(|n| *n > most), counts.limits.reserve.iter().any(|n| *n > most)];
    high.iter().position(|high| *high).map(|at| HIGH[at])
}

/// Whether lengths and mark keep their limits, so that 1 is for counts.
pub fn in_shape(given: Given, mark: u64) -> bool {
    let lengths = given.body >= 8192 && given.body.is_multiple_of(4096) && given.heads > 0;
    lengths && mark.is_multiple_of(16) && (4096..=given.body as u64).contains(&mark)
}

impl Desks {
    fn add(&mut self, kind: String) {
        *self.0.entry(kind).or_default() += 1;
    }

    /// Counts a call by the state before it, what it was given and answered, and what it took or wanted.
    pub fn count(&mut self, call: &Call, given: Given, before: &State, takes: Option<&Taken>, answer: &Answer, pair: &Pair) {
        let family = FAMILIES[given.family()];
        if let Call::Fresh(limits) = call {
            return self.making(limits, given, answer);
        }
        match (answer.refusal, given.by) {
            (0, _) => self.accepted(family, call, given, before, takes, &pair.state),
            (39, By::List(list)) => self.add(format!("39: a list {}", of_list(list, given.heads, call.key()))),
            (39, By::Desk(_)) => self.add(format!("core 39: a desk above 15, by {}", KINDS[call.kind()])),
            (1, _) if !in_shape(given, before.mark) => {}
            (1, By::List(_)) => {
                if let Some(what) = too_high(given.body, &before.counts) {
                    self.add(format!("1: {what} above the body's, by {}", KINDS[call.kind()]));
                }
            }
            (1, By::Desk(_)) => match (takes, call) {
                (Some(taken), _) => self.add(format!("core 1: counts above the body's pages, at {}", taken.what.name)),
                (None, Call::Drop { .. }) if !pair.second.key.pages.is_empty() => {
                    self.add("core 1: counts above the body's pages, at a drop of pages".into())
                }
                _ => {}
            },
            (31, _) if pair.refused == Some(Refused::Unsound(HELD_BY_DESK)) => self.add(format!("{family}31: {HELD_BY_DESK}")),
            (35 | 36 | 40 | 41, _) => self.turned(family, answer.refusal, takes.expect("a take"), before),
            _ => {}
        }
    }

    /// Counts a take that was turned back.
    fn turned(&mut self, family: &str, refusal: u32, taken: &Taken, before: &State) {
        let Kind { name, slab, run } = taken.what;
        let parted = !slab && !run && (before.free[8] == 0) != (before.counts.freed == 0);
        self.add(match refusal {
            35 if parted => format!("{family}35: {name}, {}", PARTED[usize::from(before.counts.freed == 0)]),
            40 | 41 => format!("{family}{refusal}: {}", taken.said()),
            _ => format!("{family}{refusal}: {name}"),
        });
        let over = before.counts.held.iter().zip(&before.counts.limits.reserve).any(|(held, reserve)| held > reserve);
        if refusal == 41 && over {
            self.add(format!("{family}41: {name}, while a desk is above its reserve"));
        }
    }

    /// Counts a making.
    fn making(&mut self, limits: &Limits, given: Given, answer: &Answer) {
        let By::List(list) = given.by else { return };
        let (reserve, most) = (&limits.reserve, pages_of(given.body));
        let over = limits.reserve.iter().zip(&limits.ceiling).any(|(r, c)| r > c);
        match answer.refusal {
            0 if *reserve == [0; DESKS] => self.add("a making without reserves".into()),
            0 if reserve.iter().sum::<u64>() == most - 1 => self.add("a making that reserves all pages".into()),
            0 => self.add("a making with reserves".into()),
            1 if reserve.iter().any(|n| *n > most) => self.add(format!("making, {}", MAKINGS[0])),
            39 if list_fits(list, given.heads).is_err() => self.add(format!("making, 39: a list {}", of_list(list, given.heads, None))),
            39 => self.add(format!("making, {}", MAKINGS[if over { 2 } else { 1 }])),
            _ => {}
        }
    }

    /// Counts a call that was accepted: takes at the limits, and counts that pass the body's pages.
    fn accepted(&mut self, family: &str, call: &Call, given: Given, before: &State, takes: Option<&Taken>, after: &State) {
        let most = pages_of(given.body);
        let (was, is) = (&before.counts, &after.counts);
        if too_high(given.body, was).is_none() && is.freed > most {
            self.add("a drop that lifts freed pages above the body's".into());
        }
        if too_high(given.body, was).is_none() && is.held.iter().any(|n| *n > most) {
            self.add("a take that lifts a desk's pages above the body's".into());
        }
        if matches!(given.by, By::Desk(_)) && too_high(given.body, was).is_some() {
            self.add(format!("core {} that doesn't look at counts above the body's pages", KINDS[call.kind()]));
        }
        let Some(taken) = takes else { return };
        let what = taken.what.name;
        let grown = (0..DESKS).find(|&desk| is.held[desk] != was.held[desk]);
        let had = is.freed + past(given.body, after.mark);
        if is.lacks() > 0 && had == is.lacks() {
            self.add(format!("{family}{} {LAST_PAGE}", taken.said()));
        }
        if had < was.lacks() {
            self.add(format!("{family}{what} {LACK_FALLS}"));
        }
        if grown.is_some_and(|desk| was.held[desk] < was.limits.reserve[desk]) {
            self.add(format!("{family}{what} {OF_RESERVE}"));
        }
        if grown.is_some_and(|desk| is.held[desk] == is.limits.ceiling[desk]) {
            self.add(format!("{family}{what} {TO_CEILING}"));
        }
    }

    /// Counts a call that both families made on one state.
    pub fn twins(&mut self, answer: &Answer) {
        self.add(format!("both families on one state: {}", TWINS[usize::from(answer.refusal != 0)]));
    }

    /// All that must be met, with how often it was.
    pub fn kinds(&self) -> Vec<(String, u64)> {
        let mut out: Vec<String> = LISTS.iter().map(|why| format!("39: a list {why}")).collect();
        for call in [1, 2, 4, 5, EXTEND] {
            out.push(format!("core 39: a desk above 15, by {}", KINDS[call]));
        }
        for call in &KINDS[1..] {
            out.extend(HIGH.map(|what| format!("1: {what} above the body's, by {call}")));
            out.push(format!("core {call} that doesn't look at counts above the body's pages"));
        }
        out.extend(TAKES.map(|t| format!("core 1: counts above the body's pages, at {}", t.name)));
        out.push("core 1: counts above the body's pages, at a drop of pages".into());
        out.extend(FAMILIES.iter().flat_map(|family| of_family(family)));
        out.extend(MAKINGS.map(|why| format!("making, {why}")));
        out.extend([0, 1, 3].map(|why| format!("making, 39: a list {}", LISTS[why])));
        out.extend(["a making without reserves", "a making that reserves all pages", "a making with reserves"].map(String::from));
        out.push("a drop that lifts freed pages above the body's".into());
        out.push("a take that lifts a desk's pages above the body's".into());
        out.extend(TWINS.map(|how| format!("both families on one state: {how}")));
        out.into_iter().map(|kind| (kind.clone(), self.0.get(&kind).copied().unwrap_or(0))).collect()
    }
}

/// What a family of calls must meet.
fn of_family(family: &str) -> Vec<String> {
    let mut out = vec![format!("{family}31: {HELD_BY_DESK}")];
    for kind in TAKES {
        let Kind { name, slab, run } = kind;
        let from = FROM.map(|from| kind.said(from));
        out.push(format!("{family}36: {name}"));
        out.extend(from.iter().map(|said| format!("{family}41: {said}")));
        out.extend(from.iter().map(|said| format!("{family}{said} {LAST_PAGE}")));
        out.push(format!("{family}41: {name}, while a desk is above its reserve"));
        if !run {
            out.push(format!("{family}35: {name}"));
        }
        if !slab {
            out.extend(from.iter().map(|said| format!("{family}40: {said}")));
            out.extend([OF_RESERVE, TO_CEILING, LACK_FALLS].map(|how| format!("{family}{name} {how}")));
        }
        if !slab && !run {
            out.extend(PARTED.map(|why| format!("{family}35: {name}, {why}")));
        }
    }
    out
}
