//! Random histories: a book of some shape, calls that grow, load, read and drop keys, odd calls between them, and damage. Now and then the
//! book is judged as a start; one that is good stays good until somebody else writes it.
use crate::lent::Placing;
use crate::lockstep::damage::{damage, Damaged, OF_FREED_PAGES};
use crate::lockstep::judging::lent;
use crate::lockstep::limits::{bad_limits, bad_list, desk_list, limits};
use crate::lockstep::lists;
use crate::lockstep::pair::{Answer, Call, Given, Pair, EXTEND, MOST_BODY, MOST_HEADS};
use crate::lockstep::record::Record;
use crate::lockstep::starts::Start;
use crate::lockstep::tally::{total_of, Before, Tally, DAMAGED_BOOK, FOREIGN_BOOK, FRESH_BOOK, USED_BOOK};
use crate::rng::Rng;
use crate::second_book::desks::{By, DESKS};
use crate::second_book::runs::freed_pages;
use crate::second_book::space::{State, WORDS};
use crate::second_book::{goes_to_pages, Fit, LIMIT};

/// How a history goes: the book's shape, how many calls, how long the runs of appends to one key are, of which lengths their differences
/// are in bits, the shares of loads and drops in a hundred calls, the longest load, the most pages of the runs that most loads are then, 0
/// for any loads, of how many in a hundred appends an extend takes the place, and in how many calls there is one damage, 0 for never.
#[derive(Clone, Copy, Debug)]
struct Plan {
    keys: usize,
    body: usize,
    calls: usize,
    run: u64,
    bits: &'static [u32],
    loads: u64,
    drops: u64,
    longest: usize,
    runs: u64,
    /// Whether most loads rise by one difference, so that their text is short.
    even: bool,
    extends: u64,
    damaged: u64,
}

/// Lengths of differences in bits: any, and such that a page holds some hundred numbers.
const ANY: &[u32] = &[0, 0, 3, 6, 7, 8, 13, 14, 20, 28, 35, 42, 49, 56];
const LONG: &[u32] = &[42, 47];

/// In how many calls the book is judged once, and of how many books that were just made fresh or damaged one is.
const JUDGED: u64 = 40;
const JUDGED_AT_ONCE: u64 = 3;

/// Draws a plan of a history that is written down: a small one.
fn short_plan(rng: &mut Rng) -> Plan {
    let (keys, body) = (rng.pick(&[1, 2, 4, 6]), rng.pick(&[8192, 12_288, 16_384, 28_672, 61_440]));
    let (calls, run, bits) = (rng.pick(&[10, 20, 40]), rng.pick(&[3, 12, 40]), rng.pick(&[ANY, LONG]));
    let longest = if body > 20_000 { 16_000 } else { 300 };
    let (runs, loads, drops) = if body > 20_000 { rng.pick(&[(0, 25, 12), (4, 40, 30)]) } else { (0, 25, 12) };
    Plan { keys, body, calls, run, bits, loads, drops, longest, runs, even: true, extends: 0, damaged: rng.pick(&[0, 2, 4]) }
}

/// Draws a plan.
fn plan(rng: &mut Rng) -> Plan {
    let damaged = rng.pick(&[0, 4, 12, 60]);
    let (keys, body, calls, run, bits, loads, drops, longest) = (1, 8192, 1500, 3, ANY, 12, 8, 300);
    let common = Plan { keys, body, calls, run, bits, loads, drops, longest, runs: 0, even: false, extends: 0, damaged };
    match rng.below(46) {
        // Many keys in a small body, which is soon full.
        0..10 => Plan { keys: rng.pick(&[2, 5, 20, 64, 200]), body: rng.pick(&[8192, 8192, 12_288, 20_480]), ..common },
        // Few keys that grow through every class into pages.
        10..20 => {
            let (keys, body, run, drops) =
                (rng.pick(&[1, 2, 4]), rng.pick(&[16_384, 32_768, 65_536]), rng.pick(&[40, 300, 900]), rng.pick(&[2, 8]));
            Plan { keys, body, run, drops, ..common }
        }
        // One or two keys that grow over many pages.
        20..24 => Plan { keys: rng.pick(&[1, 2]), body: 65_536, calls: 4000, run: 4000, bits: LONG, loads: 2, drops: 1, ..common },
        // Lists that take pages, loaded and dropped.
        24..36 => {
            let (keys, body, damaged) = (rng.pick(&[2, 6]), rng.pick(&[32_768, 32_768, 65_536, 131_072]), rng.pick(&[0, 2, 4]));
            Plan { keys, body, calls: 600, run: 30, loads: 25, drops: 15, longest: 5000, damaged, ..common }
        }
        // As many numbers as can be loaded.
        36..38 => {
            Plan { keys: 4, body: rng.pick(&[262_144, MOST_BODY]), calls: 60, run: 20, loads: 40, drops: 20, longest: 65_535, ..common }
        }
        // As many keys as there can be.
        38 => Plan { keys: MOST_HEADS, calls: 60, ..common },
        // Runs that are dropped, and others that are loaded out of their pages.
        39..45 => {
            let (keys, body, runs) = (rng.pick(&[4, 9, 20]), rng.pick(&[32_768, 65_536, 131_072, 262_144]), rng.pick(&[3, 6, 12]));
            Plan { keys, body, calls: 400, run: 4, loads: 42, drops: 34, longest: 5000, runs, damaged: rng.pick(&[0, 2, 4]), ..common }
        }
        _ => Plan { keys: 3, body: 262_144, calls: 300, run: 100, longest: 20_000, ..common },
    }
}

/// Draws a plan of a history with extends: a short one, since an extend has many appends.
fn extending_plan(rng: &mut Rng) -> Plan {
    let plan = plan(rng);
    Plan { calls: plan.calls.min(400), extends: rng.pick(&[30, 60, 90]), ..plan }
}

/// Draws a plan of a history that goes on from a start.
fn start_plan(rng: &mut Rng, keys: usize, body: usize) -> Plan {
    let (calls, run, bits) = (rng.pick(&[60, 200, 400]), rng.pick(&[3, 40, 300]), rng.pick(&[ANY, ANY, LONG]));
    let (longest, damaged) = (rng.pick(&[300, 300, 5000]), rng.pick(&[0, 0, 4, 12]));
    let (runs, loads, drops) = rng.pick(&[(0, 12, 8), (0, 12, 8), (5, 30, 25)]);
    Plan { keys, body, calls, run, bits, loads, drops, longest, runs, even: false, extends: rng.pick(&[0, 10, 50]), damaged }
}

/// In how many calls one is made by both families on one state, and the longest body for that.
const TWINS: u64 = 8;
const MOST_TWINS: usize = 32_768;

/// What a call is told of desks, kept for it.
enum Told {
    List(Vec<u8>),
    Desk(u64),
}

impl Told {
    fn by(&self) -> By<'_> {
        match self {
            Told::List(list) => By::List(list),
            Told::Desk(desk) => By::Desk(*desk),
        }
    }
}

/// What was before a damage, to be put back after some calls.
struct Kept {
    body: Vec<u8>,
    heads: Vec<u64>,
    state: State,
    lasts: Vec<(u64, usize)>,
    good: bool,
    own: bool,
    when: &'static str,
}

/// A history that runs. Of each key it has the last number and the length, as far as they are known.
pub struct History<'a> {
    rng: Rng,
    pair: &'a mut Pair,
    tally: &'a mut Tally,
    plan: Plan,
    name: String,
    lasts: Vec<(u64, usize)>,
    /// The desk of each key.
    desks: Vec<u8>,
    bits: u32,
    /// The key that appends go to, and how many are still to come.
    run: (usize, u64),
    /// The key that was damaged, and how many calls still look at it.
    aimed: (usize, u64),
    /// Whether the list of freed pages was damaged, so that calls rather want runs.
    list_aimed: bool,
    kept: Option<Kept>,
    /// How many calls there still are.
    left: usize,
    /// The lines of a history that is written down.
    record: Option<Record>,
    /// Where the book comes from, and whether it is known to be a good start.
    when: &'static str,
    good: bool,
    /// Whether calls alone filled every key.
    own: bool,
    /// Chances of judgements, which are apart so that calls don't depend on them, and whether the book was just
    /// made fresh or damaged.
    checks: Rng,
    due: bool,
}

/// What went wrong in a history: how many calls there were, and what.
pub type Ended = Result<u64, (u64, String)>;

impl<'a> History<'a> {
    /// A history of a book whose body, heads and state held anything.
    pub fn new(mut rng: Rng, pair: &'a mut Pair, tally: &'a mut Tally, name: String) -> History<'a> {
        let plan = plan(&mut rng);
        History::of_plan(rng, plan, pair, tally, name)
    }

    /// One that has extends.
    pub fn extending(mut rng: Rng, pair: &'a mut Pair, tally: &'a mut Tally, name: String) -> History<'a> {
        let plan = extending_plan(&mut rng);
        History::of_plan(rng, plan, pair, tally, name)
    }

    /// One that is written down; its lines are with its end.
    pub fn written(mut rng: Rng, pair: &'a mut Pair, tally: &'a mut Tally, name: String) -> History<'a> {
        let plan = short_plan(&mut rng);
        let mut out = History::of_plan(rng, plan, pair, tally, name);
        let mut record = Record::default();
        record.begin(out.pair);
        out.record = Some(record);
        out
    }

    fn of_plan(mut rng: Rng, plan: Plan, pair: &'a mut Pair, tally: &'a mut Tally, name: String) -> History<'a> {
        let fill = rng.pick(&[0u8, 0xa5, 0xff]);
        let placing = rng.pick(&[Placing::End, Placing::Start]);
        // Words before a book is made; one that is written down has short ones.
        let word = if plan.even { rng.below(10) } else { rng.next() };
        pair.begin(vec![fill; plan.body], vec![word; plan.keys], State::of_words(&[word; WORDS]), placing);
        let (lasts, desks) = (vec![(0, 0); plan.keys], desk_list(&mut rng, plan.keys));
        History::begun(rng, plan, lasts, desks, pair, tally, name)
    }

    /// A history of the book that a pair holds, of whose keys last numbers and lengths are known.
    fn begun(
        rng: Rng,
        plan: Plan,
        lasts: Vec<(u64, usize)>,
        desks: Vec<u8>,
        pair: &'a mut Pair,
        tally: &'a mut Tally,
        name: String,
    ) -> History<'a> {
        let (left, checks) = (plan.calls, Rng(rng.0 ^ 0xc4ec << 32));
        History {
            rng,
            pair,
            tally,
            plan,
            name,
            lasts,
            desks,
            bits: 7,
            run: (0, 0),
            aimed: (0, 0),
            list_aimed: false,
            kept: None,
            left,
            record: None,
            when: FRESH_BOOK,
            good: false,
            own: false,
            checks,
            due: false,
        }
    }

    /// A history that goes on from a good start.
    pub fn of_start(mut rng: Rng, start: Start, placing: Placing, pair: &'a mut Pair, tally: &'a mut Tally, name: String) -> History<'a> {
        let plan = start_plan(&mut rng, start.heads.len(), start.body.len());
        let lasts = start.lists.iter().map(|list| (list.last().copied().unwrap_or(0), list.len())).collect();
        pair.begin(start.body, start.heads, start.state, placing);
        History { when: FOREIGN_BOOK, good: true, ..History::begun(rng, plan, lasts, start.desks, pair, tally, name) }
    }

    /// Runs the history, and tells how many calls there were.
    pub fn run(mut self) -> Ended {
        self.run_on()
    }

    /// Runs the history, and gives its lines and the longest list of a call.
    pub fn lines(mut self) -> (Vec<String>, usize) {
        self.run_on().unwrap_or_else(|(_, what)| panic!("{}: {what}", self.name));
        self.record.take().map_or((Vec::new(), 0), |record| (record.lines, record.longest))
    }

    fn run_on(&mut self) -> Ended {
        let mut made = 0;
        if self.when == FRESH_BOOK {
            while self.rng.below(3) == 0 {
                made += 1;
                self.bad_making().map_err(|what| (made, what))?;
            }
            made += 1;
            let call = Call::Fresh(limits(&mut self.rng, self.plan.body, &self.desks));
            let told = Told::List(self.desks.clone());
            self.call(&call, self.plan.body, self.plan.keys, &told).map_err(|what| (made, what))?;
        }
        while self.left > 0 {
            self.left -= 1;
            self.damage_now_and_then();
            if self.is_judged() {
                made += 1;
                self.judge().map_err(|what| (made, what))?;
            }
            let call = self.next_call();
            let (body, heads) = self.shape(&call);
            let told = self.told(&call, heads);
            made += 1;
            self.twins(&call, body, heads).map_err(|what| (made, what))?;
            self.call(&call, body, heads, &told).map_err(|what| (made, what))?;
        }
        Ok(made)
    }

    /// A making that is refused for its limits or its list, or nearly.
    fn bad_making(&mut self) -> Result<(), String> {
        let (body, heads) = (self.plan.body, self.plan.keys);
        let call = Call::Fresh(bad_limits(&mut self.rng, body, &self.desks));
        let list = if self.rng.below(3) == 0 { bad_list(&mut self.rng, &self.desks, 0) } else { self.desks.clone() };
        self.call(&call, body, heads, &Told::List(list))
    }

    /// What a call is told of desks: the list of all, or the key's own; now and then something else.
    fn told(&mut self, call: &Call, heads: usize) -> Told {
        let (list, key) = (&self.desks[..heads], call.key());
        let desk = key.and_then(|key| list.get(key as usize)).copied().unwrap_or(0);
        let (odd, fresh) = (self.rng.below(80), key.is_none());
        if !fresh && self.rng.below(5) < 2 {
            let other = self.rng.below(DESKS as u64);
            return Told::Desk(match odd {
                0 => self.rng.pick(&[16, 16, 255, 256 + other, 1 << 32 | other, u64::MAX]),
                1 if self.plan.damaged > 0 => other,
                _ => desk.into(),
            });
        }
        Told::List(match odd {
            _ if fresh && odd >= 20 => list.to_vec(),
            0..20 if odd == 0 || fresh => bad_list(&mut self.rng, list, key.unwrap_or(0).min(1 << 20) as usize),
            1 if self.plan.damaged > 0 => desk_list(&mut self.rng, heads),
            _ => list.to_vec(),
        })
    }

    /// Now and then makes a call by one family and puts all back, so that the other makes it on the same state: where lists and counts are
    /// good, both answer and leave the same.
    fn twins(&mut self, call: &Call, body: usize, heads: usize) -> Result<(), String> {
        let Some(key) = call.key().filter(|key| *key < heads as u64) else { return Ok(()) };
        if self.record.is_some() || self.pair.body.len() > MOST_TWINS || self.checks.below(TWINS) != 0 {
            return Ok(());
        }
        let list = self.desks[..heads].to_vec();
        let before = (self.pair.body.clone(), self.pair.heads.clone(), self.pair.state);
        let core = self.pair.call(call, Given { body, heads, by: By::Desk(list[key as usize].into()) }, &self.name)?;
        let after = (self.pair.body.clone(), self.pair.heads.clone(), self.pair.state);
        let high = before.2.counts.fit(body).is_err();
        (self.pair.body, self.pair.heads, self.pair.state) = before.clone();
        self.pair.copy();
        let book = self.pair.call(call, Given { body, heads, by: By::List(&list) }, &self.name)?;
        let left = self.pair.body == after.0 && self.pair.heads == after.1 && self.pair.state == after.2;
        if !high && (book != core || !left) {
            return Err(format!("{call:?}: the core answers {core:?}, and the book {book:?}, on one state"));
        }
        self.tally.desks.twins(&book);
        (self.pair.body, self.pair.heads, self.pair.state) = before;
        self.pair.copy();
        Ok(())
    }

    /// Calls both books, and learns from the answer.
    fn call(&mut self, call: &Call, body: usize, heads: usize, told: &Told) -> Result<(), String> {
        let given = Given { body, heads, by: told.by() };
        let word = call.key().and_then(|key| self.pair.heads.get(key as usize)).copied().unwrap_or(0);
        let load = matches!(call, Call::Load { .. });
        let freed = if load { freed_pages(&self.pair.body[..body], &self.pair.state) } else { Ok(Vec::new()) };
        let before = Before { state: self.pair.state, word, total: total_of(&self.pair.body, word), freed };
        let answer: Answer = self.pair.call(call, given, &self.name)?;
        self.tally.count(call, given, &before, &answer, self.pair);
        if let Some(record) = &mut self.record {
            record.call(call, given, &answer, self.pair);
        }
        let (others, next) = (self.others(call, told), if call.kind() == EXTEND { answer.extension().refusal } else { 0 });
        if self.good && !others && (matches!(answer.refusal, 31 | 35 | 42) || matches!(next, 1 | 31 | 35)) {
            return Err(format!("{call:?}: on a good book answers {} and {next}", answer.refusal));
        }
        if self.good && !others && self.breaks_promise(call, given, &before, &answer) {
            return Err(format!("{call:?}: a desk below its reserve gets no page, but {}", answer.refusal.max(next)));
        }
        if self.own && matches!(call, Call::Read { .. }) && answer.told[2] != 0 {
            return Err(format!("{call:?}: of a key that calls alone filled {} numbers are padded", answer.told[2]));
        }
        if answer.refusal == 0 && others {
            (self.good, self.when) = (false, DAMAGED_BOOK);
        }
        if answer.refusal == 0 {
            self.learn(call, heads, &answer);
        }
        Ok(())
    }

    /// Learns what the book holds from a call that was accepted.
    fn learn(&mut self, call: &Call, heads: usize, answer: &Answer) {
        if self.when == FRESH_BOOK {
            self.when = USED_BOOK;
        }
        match call {
            Call::Fresh(_) => {
                // Heads that it wasn't lent name blocks of the book before.
                (self.good, self.own) = (heads == self.plan.keys, heads == self.plan.keys);
                (self.when, self.due) = (FRESH_BOOK, true);
                self.lasts.fill((0, 0));
            }
            Call::Load { key, fks, .. } => self.lasts[*key as usize] = (fks.last().copied().unwrap_or(0), fks.len()),
            Call::Append { key, fk } => {
                let last = &mut self.lasts[*key as usize];
                *last = (*fk, last.1 + 1);
            }
            Call::Read { key, .. } => self.lasts[*key as usize].1 = answer.told[0] as usize,
            Call::Drop { key } => self.lasts[*key as usize] = (0, 0),
            Call::Extend { key, fks } => {
                let (last, count) = (&mut self.lasts[*key as usize], answer.extension().count as usize);
                *last = (fks[..count].last().copied().unwrap_or(last.0), last.1 + count);
            }
        }
    }

    /// Whether a page for an append, or for one of an extend, was refused to a desk below its reserve.
    fn breaks_promise(&self, call: &Call, given: Given, before: &Before, answer: &Answer) -> bool {
        let (page, counts) = match call {
            Call::Append { .. } => {
                let page = Tally::takes(call, given, before, answer, self.pair).is_some_and(|taken| taken.class == 8);
                (answer.refusal != 0 && page, &before.state.counts)
            }
            Call::Extend { .. } => {
                let told = answer.extension();
                let page = told.kind == 3 || goes_to_pages(&self.pair.second.list);
                (matches!(told.refusal, 36 | 40 | 41) && page, &self.pair.state.counts)
            }
            _ => return false,
        };
        let desk = call.key().and_then(|key| self.desks.get(key as usize)).map_or(0, |desk| usize::from(*desk));
        page && given.body == self.plan.body && counts.held[desk] < counts.limits.reserve[desk]
    }

    /// Whether a change counted by another desk than the key's.
    fn others(&self, call: &Call, told: &Told) -> bool {
        let Some(key) = call.key().filter(|_| !matches!(call, Call::Read { .. })) else { return false };
        match told {
            Told::List(list) => list.get(key as usize) != self.desks.get(key as usize),
            Told::Desk(desk) => self.desks.get(key as usize).is_none_or(|own| *desk != u64::from(*own)),
        }
    }

    /// Whether the book is judged now. A history that is written down has no judgements.
    fn is_judged(&mut self) -> bool {
        let often = if self.due { JUDGED_AT_ONCE } else { JUDGED };
        self.due = false;
        self.record.is_none() && self.checks.below(often) == 0
    }

    /// Has both judge the book; one that was good, and that calls alone wrote since, is good.
    fn judge(&mut self) -> Result<(), String> {
        let check = lent(&mut self.checks, self.plan.body, &self.desks);
        let judged = self.pair.check(&check, &self.name)?;
        self.tally.judged(self.when, &judged);
        let whole = check.body == self.plan.body && check.desks == self.desks && judged != Err(34);
        let good = judged.is_ok_and(|v| v.ground == 0);
        if whole && self.good && !good {
            return Err(format!("{check:?}: a good book is judged {judged:?} after calls"));
        }
        self.good |= whole && good;
        Ok(())
    }

    /// How much of body and heads a call is lent: all, and now and then less; most often where the book would become fresh.
    fn shape(&mut self, call: &Call) -> (usize, usize) {
        let (body, heads) = (self.plan.body, self.plan.keys);
        match self.rng.below(if matches!(call, Call::Fresh(_)) { 3 } else { 400 }) {
            0 => (self.rng.pick(&[0, 1, 4095, 4096, 8191, body - 1, body - 16, body - 4096]), heads),
            1 => (body, self.rng.pick(&[0, heads - 1, 1])),
            _ => (body, heads),
        }
    }

    /// Damages the book, or puts back what was before.
    fn damage_now_and_then(&mut self) {
        if self.aimed.1 > 0 {
            self.aimed.1 -= 1;
            return;
        }
        if let Some(kept) = self.kept.take() {
            (self.pair.body, self.pair.heads, self.pair.state, self.lasts) = (kept.body, kept.heads, kept.state, kept.lasts);
            (self.good, self.own, self.when) = (kept.good, kept.own, kept.when);
            self.rewritten();
        }
        if self.plan.damaged == 0 || self.rng.below(self.plan.damaged) != 0 {
            return;
        }
        if self.rng.below(8) != 0 {
            let (body, heads) = (self.pair.body.clone(), self.pair.heads.clone());
            let (good, own, when) = (self.good, self.own, self.when);
            self.kept = Some(Kept { body, heads, state: self.pair.state, lasts: self.lasts.clone(), good, own, when });
        } else {
            // It stays damaged, and soon there isn't much to see.
            self.left = self.left.min(200);
        }
        let key = if self.rng.below(2) == 0 { self.page_key() } else { self.some_key() };
        let (Pair { body, heads, state, .. }, desk) = (&mut *self.pair, self.desks[key].into());
        let mut book = Damaged { body, heads, state, key, desk };
        self.list_aimed = false;
        for _ in 0..self.rng.pick(&[1, 1, 1, 2]) {
            let name = damage(&mut book, &mut self.rng);
            self.list_aimed |= OF_FREED_PAGES.contains(&name);
            *self.tally.damages.entry(name).or_default() += 1;
        }
        self.rewritten();
        let word = self.pair.heads[key];
        if self.pair.second.key.end(&self.pair.body, self.pair.state.mark.min(self.plan.body as u64), word).is_ok() {
            let key_now = &self.pair.second.key;
            self.lasts[key] = (key_now.fks.last().map_or(0, |fk| fk.0), self.lasts[key].1.max(key_now.fks.len()));
        }
        self.aimed = (key, 1 + self.rng.below(6));
        self.run.1 = 0;
        (self.good, self.own, self.when, self.due) = (false, false, DAMAGED_BOOK, true);
    }

    /// Gives ours what was written into the second book's memory.
    fn rewritten(&mut self) {
        self.pair.copy();
        if let Some(record) = &mut self.record {
            record.written(self.pair);
        }
    }

    /// Any key, of very many one of the first.
    fn any_key(&mut self) -> usize {
        self.rng.below(if self.plan.keys > 200 { 50 } else { self.plan.keys as u64 }) as usize
    }

    /// A key, rather one in use.
    fn some_key(&mut self) -> usize {
        let (key, other) = (self.any_key(), self.any_key());
        if self.pair.heads[key] != 0 {
            key
        } else {
            other
        }
    }

    /// A key in pages, if one is found.
    fn page_key(&mut self) -> usize {
        let mut key = self.some_key();
        for _ in 0..6 {
            if self.pair.heads[key] >> 62 == 3 {
                break;
            }
            key = self.some_key();
        }
        key
    }

    /// A key that is empty, if one is found.
    fn empty_key(&mut self) -> usize {
        let mut key = self.any_key();
        for _ in 0..6 {
            if self.pair.heads[key] == 0 {
                break;
            }
            key = self.any_key();
        }
        key
    }

    fn next_call(&mut self) -> Call {
        if self.aimed.1 > 0 && self.list_aimed && self.rng.below(4) != 0 {
            return if self.rng.below(6) == 0 { Call::Drop { key: self.page_key() as u64 } } else { self.load_run() };
        }
        if self.aimed.1 > 0 && self.rng.below(8) != 0 {
            let key = self.aimed.0;
            return match self.rng.below(8) {
                0..3 => self.read(key),
                3..6 => self.grow(key),
                6 => self.load(),
                _ => Call::Drop { key: key as u64 },
            };
        }
        if self.run.1 > 0 && self.rng.below(12) != 0 {
            self.run.1 -= 1;
            return self.grow(self.run.0);
        }
        let share = self.rng.below(100);
        match share {
            _ if share < self.plan.loads => self.load(),
            _ if share < self.plan.loads + self.plan.drops => Call::Drop { key: self.some_key() as u64 },
            80..97 => {
                let key = self.some_key();
                self.read(key)
            }
            97.. => self.odd(),
            _ => {
                let key = self.some_key();
                self.run = (key, self.rng.below(self.plan.run + 1));
                self.bits = self.rng.pick(self.plan.bits);
                self.grow(key)
            }
        }
    }

    /// An append, or in its place an extend.
    fn grow(&mut self, key: usize) -> Call {
        if self.plan.extends > 0 && self.rng.below(100) < self.plan.extends {
            self.extend(key)
        } else {
            self.append(key)
        }
    }

    /// An extend by numbers that rise, now and then by none, or with one among them that is turned back. Many numbers are far apart, so that they
    /// fill several pages.
    fn extend(&mut self, key: usize) -> Call {
        let most = self.rng.pick(if self.bits > 40 { &[1, 30, 300, 600, 2500] } else { &[1, 3, 30, 30, 300] });
        let mut last = self.lasts[key].0;
        let mut fks = Vec::new();
        for _ in 0..self.rng.below(most + 1) {
            last += 1 + self.rng.bits(self.bits);
            if last >= LIMIT {
                break;
            }
            fks.push(last);
        }
        let at = if self.rng.below(5) == 0 { self.rng.below(fks.len() as u64 + 1) as usize } else { fks.len() };
        if at < fks.len() {
            let before = if at == 0 { self.lasts[key].0 } else { fks[at - 1] };
            fks[at] = self.rng.pick(&[0, LIMIT, LIMIT - 1, 1 << 63, u64::MAX, before, before.saturating_sub(1)]);
        }
        Call::Extend { key: key as u64, fks }
    }

    /// An append of a number that rises, by a difference of the history's length in bits.
    fn append(&mut self, key: usize) -> Call {
        let last = self.lasts[key].0;
        let fk = last + 1 + self.rng.bits(self.bits);
        let fk = if fk < LIMIT { fk } else { last + 1 };
        if fk >= LIMIT {
            Call::Drop { key: key as u64 }
        } else {
            Call::Append { key: key as u64, fk }
        }
    }

    /// A read into a list that is long enough, or one short.
    fn read(&mut self, key: usize) -> Call {
        let n = self.lasts[key].1;
        Call::Read { key: key as u64, room: self.rng.pick(&[n, n, n, n, n + 1, n + 9, n.saturating_sub(1), 0]) }
    }

    /// How a load fits: with a spare slot or tight.
    fn fit(&mut self) -> Fit {
        self.rng.pick(&[Fit::Spare, Fit::Tight])
    }

    /// A load of a run onto an empty key.
    fn load_run(&mut self) -> Call {
        let (key, fit, most) = (self.empty_key() as u64, self.fit(), if self.plan.runs > 0 { self.plan.runs } else { 4 });
        let pages = 1 + self.rng.below(most);
        Call::Load { key, fks: lists::of_run(&mut self.rng, pages, self.plan.even), fit }
    }

    /// A load onto an empty key: none, one, a slab of each class, or pages.
    fn load(&mut self) -> Call {
        if self.plan.runs > 0 && self.rng.below(4) != 0 {
            return self.load_run();
        }
        let (key, fit) = (self.empty_key() as u64, self.fit());
        let (longest, even) = (self.plan.longest as u64, self.plan.even && self.rng.below(4) != 0);
        let len = match self.rng.below(13) {
            0 if longest > 4096 => {
                let before = self.rng.below((self.plan.body as u64 / 4096).min(8));
                let left = self.rng.pick(&[0, 0, 1, 2, 9, 20]);
                return Call::Load { key, fks: lists::of_pages(&mut self.rng, before, left, if even { 1 } else { 3 }), fit };
            }
            1..5 if longest > 4096 => self.rng.below(longest) + 1,
            0..6 => self.rng.below(30),
            6 => self.rng.pick(&[0, 1, 254, 255, 256, 257]),
            7..9 => self.rng.below(300),
            9 => return Call::Load { key, fks: lists::of_slots(&mut self.rng, even), fit },
            10 => return Call::Load { key, fks: lists::of_payload(&mut self.rng), fit },
            _ => self.rng.below(longest) + 1,
        };
        let len = if self.plan.even && !even { len.min(300) } else { len };
        Call::Load { key, fks: lists::of_length(&mut self.rng, len, even), fit }
    }

    /// A call that is turned back for what it is given.
    fn odd(&mut self) -> Call {
        let key = self.some_key();
        let (last, n) = self.lasts[key];
        let beyond = self.plan.keys as u64 + self.rng.pick(&[0, 1, 1 << 32, u64::MAX / 2]);
        let empty = self.empty_key() as u64;
        let (at, fit) = (key as u64, self.fit());
        match self.rng.below(9) {
            0 => Call::Append { key: at, fk: self.rng.pick(&[0, LIMIT, LIMIT - 1, 1 << 63, u64::MAX, last, last.saturating_sub(1)]) },
            1 if self.plan.extends > 0 && self.rng.below(3) == 0 => {
                Call::Extend { key: beyond, fks: self.rng.pick_one(&[vec![], vec![0], vec![5, 6]]) }
            }
            1 => self.rng.pick_one(&[
                Call::Load { key: beyond, fks: vec![5], fit },
                Call::Append { key: beyond, fk: 5 },
                Call::Read { key: beyond, room: 9 },
                Call::Drop { key: beyond },
            ]),
            2 => Call::Load { key: at, fks: vec![5, 6, 7], fit },
            3 => {
                let bad = self.rng.pick(&[0, LIMIT, 1 << 63, u64::MAX, 5, 4]);
                let lists = [vec![bad], vec![5, bad], vec![1, 5, bad, 0], vec![0, 1 << 63], vec![bad, 5, 9]];
                Call::Load { key: empty, fks: self.rng.pick_one(&lists), fit }
            }
            4 if self.rng.below(8) == 0 => {
                let count = self.rng.pick(&[65_535, 65_536, 65_537]);
                Call::Load { key: empty, fks: (1..=count).collect(), fit }
            }
            5 if self.rng.below(4) == 0 => {
                // A long list that doesn't rise at one place.
                let len = 2 + self.rng.below(3000);
                let mut fks: Vec<u64> = (1..=len).collect();
                let from = 1 + self.rng.below(len - 1) as usize;
                fks[from] = self.rng.pick(&[from as u64, 0, 1, LIMIT, 1 << 63]);
                Call::Load { key: empty, fks, fit }
            }
            6 if self.rng.below(10) == 0 => {
                let draw = self.rng.pick(&[limits, limits, bad_limits]);
                Call::Fresh(draw(&mut self.rng, self.plan.body, &self.desks))
            }
            _ => Call::Read { key: at, room: self.rng.pick(&[0, 1, n.saturating_sub(1), n / 2]) },
        }
    }
}
