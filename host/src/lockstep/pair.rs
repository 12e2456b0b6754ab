//! Our book and the second one, side by side: each call goes to both, and everything that they answer and leave is compared.
use crate::book_sys as sys;
use crate::fault::{during, Saying};
use crate::judge::place_of;
use crate::lent::{Area, Placing};
use crate::second_book::desks::{At, By, Limits, WORDS};
use crate::second_book::space::State;
use crate::second_book::start::Verdict;
use crate::second_book::{Fit, Refused, SecondBook};
use crate::table::numbers_theirs;
use std::fmt::{Debug, Formatter, Result as Written};

/// A call of the book. A read is lent a list of a length.
#[derive(Clone)]
#[allow(clippy::large_enum_variant)]
pub enum Call {
    Fresh(Limits),
    Load { key: u64, fks: Vec<u64>, fit: Fit },
    Append { key: u64, fk: u64 },
    Read { key: u64, room: usize },
    Drop { key: u64 },
    Extend { key: u64, fks: Vec<u64> },
}

/// The kinds of calls, by name.
pub const KINDS: [&str; 7] = ["fresh", "load", "append", "read", "drop", "tight load", "extend"];
/// The place of an extend among them.
pub const EXTEND: usize = 6;

impl Call {
    /// The place of a call's kind among the names.
    pub fn kind(&self) -> usize {
        match self {
            Call::Fresh(_) => 0,
            Call::Load { fit: Fit::Spare, .. } => 1,
            Call::Append { .. } => 2,
            Call::Read { .. } => 3,
            Call::Drop { .. } => 4,
            Call::Load { fit: Fit::Tight, .. } => 5,
            Call::Extend { .. } => EXTEND,
        }
    }

    /// The key that a call is about.
    pub fn key(&self) -> Option<u64> {
        match self {
            Call::Fresh(_) => None,
            Call::Load { key, .. } | Call::Append { key, .. } | Call::Read { key, .. } | Call::Drop { key } | Call::Extend { key, .. } => {
                Some(*key)
            }
        }
    }
}

impl Debug for Call {
    fn fmt(&self, f: &mut Formatter) -> Written {
        match self {
            Call::Fresh(limits) => {
                let both = limits.reserve.iter().zip(&limits.ceiling).enumerate();
                let some = both.filter(|(_, (reserve, ceiling))| **reserve != 0 || **ceiling != u64::MAX);
                let said: Vec<String> = some.map(|(desk, (reserve, ceiling))| format!("{desk}: {reserve} to {ceiling}")).collect();
                write!(f, "fresh with limits of desks [{}]", said.join(", "))
            }
            Call::Load { key, fks, .. } if fks.len() > 8 => {
                write!(f, "{} onto key {key} of {} numbers from {}", KINDS[self.kind()], fks.len(), fks[0])
            }
            Call::Load { key, fks, .. } => write!(f, "{} onto key {key} of {fks:?}", KINDS[self.kind()]),
            Call::Append { key, fk } => write!(f, "append to key {key} of {fk}"),
            Call::Read { key, room } => write!(f, "read of key {key} into {room}"),
            Call::Drop { key } => write!(f, "drop of key {key}"),
            Call::Extend { key, fks } if fks.len() > 8 => write!(f, "extend of key {key} by {} numbers from {}", fks.len(), fks[0]),
            Call::Extend { key, fks } => write!(f, "extend of key {key} by {fks:?}"),
        }
    }
}

/// What a call is lent: the first bytes of the body and the first heads; and what it is told of desks. A making is always told a list.
#[derive(Clone, Copy)]
pub struct Given<'a> {
    pub body: usize,
    pub heads: usize,
    pub by: By<'a>,
}

/// The families of calls: the book's and the core's.
pub const FAMILIES: [&str; 2] = ["", "core "];

impl Given<'_> {
    /// The place of the call's family among the names.
    pub fn family(&self) -> usize {
        match self.by {
            By::List(_) => 0,
            By::Desk(_) => 1,
        }
    }
}

impl Debug for Given<'_> {
    fn fmt(&self, f: &mut Formatter) -> Written {
        match self.by {
            By::List(list) if list.len() > 16 => write!(f, "with {} desks", list.len()),
            By::List(list) => write!(f, "with the desks {list:?}"),
            By::Desk(desk) => write!(f, "by desk {desk}"),
        }
    }
}

/// The most numbers that a call hands out.
pub const OUTS: usize = 8;
/// The numbers that a call hands out, 0 where there are fewer.
pub type Numbers = [u64; OUTS];

/// So many numbers, and zeros behind them.
fn numbers<const N: usize>(first: [u64; N]) -> Numbers {
    std::array::from_fn(|place| first.get(place).copied().unwrap_or(0))
}

/// What a call answers: the refusal's number, or 0, and the numbers that it hands out.
#[derive(Clone, Copy, Debug, Default, PartialEq, Eq)]
pub struct Answer {
    pub refusal: u32,
    pub told: Numbers,
}

/// What an extend that was accepted tells: how many numbers were appended, why the next one was refused, or 0, the kind of the key's place
/// then and its offset or number, and how many appends moved the list.
#[derive(Clone, Copy)]
pub struct Extension {
    pub count: u64,
    pub refusal: u32,
    pub kind: u64,
    pub place: u64,
    pub moves: u64,
}

impl Answer {
    /// What it tells as that of an extend.
    pub fn extension(&self) -> Extension {
        let [count, refusal, kind, _, _, place, moves, _] = self.told;
        Extension { count, refusal: refusal as u32, kind, place, moves }
    }
}

/// A judgement of a start, on the first bytes of the body and the first heads, with a list of desks and a work list of a length.
#[derive(Clone, Debug)]
pub struct Check {
    pub body: usize,
    pub heads: usize,
    pub desks: Vec<u8>,
    pub room: usize,
}

/// What a lent list holds before a call.
const FILL: u64 = 0xa5a5_a5a5_a5a5_a5a5;
/// The bytes of the numbers that an extend hands out.
const EXTEND_SIZES: &[usize] = &[8, 4, 1, 1, 2, 8, 8, 8];
/// The most bytes of a body, and the most words of heads and of lists.
pub const MOST_BODY: usize = 1 << 20;
pub const MOST_HEADS: usize = 65_536;
const MOST_LIST: usize = 1 << 19;
/// The most desks that a list has over as many as there are heads.
pub const MORE_DESKS: usize = 16;
/// The most bytes that a work list has over those that the longest body needs.
pub const MORE_WORK: usize = 4096;

/// Our side: everything between pages that can't be touched.
pub struct Ours {
    pub body: Area,
    pub heads: Area,
    mark: Area,
    free: Area,
    counts: Area,
    desks: Area,
    limits: [Area; 2],
    list: Area,
    work: Area,
    outs: [Area; OUTS],
    pub placing: Placing,
}

impl Ours {
    /// One with a body and a work list of so many bytes.
    pub fn new(body: Area, work: usize) -> Ours {
        Ours {
            body,
            heads: Area::new(8 * (MOST_HEADS + 1)),
            mark: Area::new(1),
            free: Area::new(1),
            counts: Area::new(1),
            desks: Area::new(MOST_HEADS + MORE_DESKS),
            limits: std::array::from_fn(|_| Area::new(1)),
            list: Area::new(8 * MOST_LIST),
            work: Area::new(work),
            outs: std::array::from_fn(|_| Area::new(1)),
            placing: Placing::End,
        }
    }

    /// A number for a call to hand out, in the place of its own.
    #[allow(clippy::mut_from_ref)]
    fn out<T>(&self, place: usize) -> &mut T {
        unsafe { &mut *self.outs[place].place::<T>(1, Placing::End) }
    }

    /// What was handed out in numbers of these sizes.
    fn told(&self, sizes: &[usize]) -> Numbers {
        let mut told = [0; OUTS];
        for ((told, area), size) in told.iter_mut().zip(&self.outs).zip(sizes) {
            let mut word = [0; 8];
            word[..*size].copy_from_slice(area.slice(*size, Placing::End));
            *told = u64::from_le_bytes(word);
        }
        told
    }

    /// The state that the second book has.
    pub fn put_state(&self, state: &State) {
        *self.lend(&self.mark) = state.mark;
        *self.lend(&self.free) = state.free;
        *self.lend(&self.counts) = state.counts.words();
    }

    /// What an area lends to a call, flush with the page behind.
    #[allow(clippy::mut_from_ref)]
    fn lend<T>(&self, area: &Area) -> &mut T {
        unsafe { &mut *area.place::<T>(1, Placing::End) }
    }

    /// Where a list of an area begins; one without length is null, where slices are flush with the page behind.
    fn list_at<T>(&self, area: &Area, len: usize) -> *mut T {
        area.place(len, if self.placing == Placing::End { Placing::Null } else { self.placing })
    }

    /// Where a list of desks begins that a call is lent.
    fn desks_at(&self, list: &[u8]) -> *const u8 {
        self.desks.slice::<u8>(list.len(), self.placing).copy_from_slice(list);
        self.list_at(&self.desks, list.len())
    }

    /// What a call of ours answers, of a book with a length of body and heads, of which it is given some, and such a list.
    pub fn call(&self, call: &Call, whole: (usize, usize), given: Given, list: &[u64]) -> Answer {
        self.list.slice::<u64>(list.len(), self.placing).copy_from_slice(list);
        self.outs.iter().for_each(|out| out.slice(8, Placing::End).fill(0xa5u8));
        let (refusal, sizes) = match given.by {
            By::List(desks) => self.call_book(call, whole, given, desks, list.len()),
            By::Desk(desk) => self.call_core(call, whole, given, desk, list.len()),
        };
        Answer { refusal, told: self.told(sizes) }
    }

    /// A call of the book.
    fn call_book(&self, call: &Call, whole: (usize, usize), given: Given, list: &[u8], lent: usize) -> (u32, &'static [usize]) {
        let (b, w) = (self.body.place::<u8>(whole.0, self.placing), self.heads.place::<u64>(whole.1, self.placing));
        let (b_len, w_len, desks, d_len) = (given.body, given.heads, self.desks_at(list), list.len());
        let (mark, free, counts): (&mut u64, &mut sys::Free, &mut sys::Counts) =
            (self.lend(&self.mark), self.lend(&self.free), self.lend(&self.counts));
        let at = self.list_at::<u64>(&self.list, lent);
        unsafe {
            match *call {
                Call::Fresh(limits) => {
                    let [reserve, ceiling] = self.limits.each_ref().map(|area| self.lend::<sys::Limit>(area));
                    (*reserve, *ceiling) = (limits.reserve, limits.ceiling);
                    (sys::ouriscado_book_fresh(b, b_len, w, w_len, mark, free, counts, desks, d_len, reserve, ceiling), &[])
                }
                Call::Load { key, fit, .. } => {
                    let load = match fit {
                        Fit::Spare => sys::ouriscado_book_load,
                        Fit::Tight => sys::ouriscado_book_load_tight,
                    };
                    (load(b, b_len, w, w_len, mark, free, counts, desks, d_len, key, at, lent, self.out(0)), &[8])
                }
                Call::Append { key, fk } => {
                    let (kind, class, used, place, rewritten) = (self.out(0), self.out(1), self.out(2), self.out(3), self.out(4));
                    let append = sys::ouriscado_book_append;
                    let number = append(b, b_len, w, w_len, mark, free, counts, desks, d_len, key, fk, kind, class, used, place, rewritten);
                    (number, &[1, 1, 2, 8, 8])
                }
                Call::Read { key, .. } => {
                    let (length, pages, padded) = (self.out(0), self.out(1), self.out(2));
                    let read = sys::ouriscado_book_read;
                    (read(b, b_len, w, w_len, *mark, counts, desks, d_len, key, at, lent, length, pages, padded), &[8, 8, 8])
                }
                Call::Drop { key } => {
                    (sys::ouriscado_book_drop(b, b_len, w, w_len, mark, free, counts, desks, d_len, key, self.out(0)), &[8])
                }
                Call::Extend { key, .. } => {
                    let (accepted, refusal, kind, class) = (self.out(0), self.out(1), self.out(2), self.out(3));
                    let (used, place, moves, rewritten) = (self.out(4), self.out(5), self.out(6), self.out(7));
                    let number = sys::ouriscado_book_extend(
                        b, b_len, w, w_len, mark, free, counts, desks, d_len, key, at, lent, accepted, refusal, kind, class, used, place,
                        moves, rewritten,
                    );
                    (number, EXTEND_SIZES)
                }
            }
        }
    }

    /// A call of the core.
    fn call_core(&self, call: &Call, whole: (usize, usize), given: Given, desk: u64, lent: usize) -> (u32, &'static [usize]) {
        let (b, w) = (self.body.place::<u8>(whole.0, self.placing), self.heads.place::<u64>(whole.1, self.placing));
        let (b_len, w_len, at) = (given.body, given.heads, self.list_at::<u64>(&self.list, lent));
        let (mark, free, counts): (&mut u64, &mut sys::Free, &mut sys::Counts) =
            (self.lend(&self.mark), self.lend(&self.free), self.lend(&self.counts));
        unsafe {
            match *call {
                Call::Fresh(_) => panic!("the core makes no book"),
                Call::Load { key, fit, .. } => {
                    let load = match fit {
                        Fit::Spare => sys::ouriscado_core_load,
                        Fit::Tight => sys::ouriscado_core_load_tight,
                    };
                    (load(b, b_len, w, w_len, mark, free, counts, desk, key, at, lent, self.out(0)), &[8])
                }
                Call::Append { key, fk } => {
                    let (kind, class, used, place, rewritten) = (self.out(0), self.out(1), self.out(2), self.out(3), self.out(4));
                    let append = sys::ouriscado_core_append;
                    let number = append(b, b_len, w, w_len, mark, free, counts, desk, key, fk, kind, class, used, place, rewritten);
                    (number, &[1, 1, 2, 8, 8])
                }
                Call::Read { key, .. } => {
                    let (length, pages, padded) = (self.out(0), self.out(1), self.out(2));
                    (sys::ouriscado_core_read(b, b_len, w, w_len, *mark, key, at, lent, length, pages, padded), &[8, 8, 8])
                }
                Call::Drop { key } => (sys::ouriscado_core_drop(b, b_len, w, w_len, mark, free, counts, desk, key, self.out(0)), &[8]),
                Call::Extend { key, .. } => {
                    let (accepted, refusal, kind, class) = (self.out(0), self.out(1), self.out(2), self.out(3));
                    let (used, place, moves, rewritten) = (self.out(4), self.out(5), self.out(6), self.out(7));
                    let number = sys::ouriscado_core_extend(
                        b, b_len, w, w_len, mark, free, counts, desk, key, at, lent, accepted, refusal, kind, class, used, place, moves,
                        rewritten,
                    );
                    (number, EXTEND_SIZES)
                }
            }
        }
    }

    /// How many numbers ours says that a key has.
    pub fn length(&self, key: u64, whole: (usize, usize), given: Given) -> Answer {
        self.outs.iter().for_each(|out| out.slice(8, Placing::End).fill(0xa5u8));
        let (b, w) = (self.body.place::<u8>(whole.0, self.placing), self.heads.place::<u64>(whole.1, self.placing));
        let (b_len, w_len, mark, length) = (given.body, given.heads, *self.lend::<u64>(&self.mark), self.out(0));
        let refusal = unsafe {
            match given.by {
                By::List(list) => {
                    let (counts, desks, tell) = (self.lend(&self.counts), self.desks_at(list), sys::ouriscado_book_length);
                    tell(b, b_len, w, w_len, mark, counts, desks, list.len(), key, length)
                }
                By::Desk(_) => sys::ouriscado_core_length(b, b_len, w, w_len, mark, key, length),
            }
        };
        Answer { refusal, told: self.told(&[8]) }
    }

    /// What ours judges, with a work list that holds these bytes: the refusal; and the ground, the key, class or desk, and the units that
    /// belong to nobody.
    pub fn check(&self, check: &Check, whole: (usize, usize), work: &[u8]) -> (u32, [u64; 3]) {
        self.work.slice::<u8>(check.room, self.placing).copy_from_slice(work);
        self.outs.iter().for_each(|out| out.slice(8, Placing::End).fill(0xa5u8));
        let (b, w) = (self.body.place::<u8>(whole.0, self.placing), self.heads.place::<u64>(whole.1, self.placing));
        let (mark, free, counts): (&mut u64, &mut sys::Free, &mut sys::Counts) =
            (self.lend(&self.mark), self.lend(&self.free), self.lend(&self.counts));
        let (b_len, w_len, d_len, room) = (check.body, check.heads, check.desks.len(), check.room);
        let (desks, work) = (self.desks_at(&check.desks), self.list_at(&self.work, room));
        let (ground, which, lost) = (self.out(0), self.out(1), self.out(2));
        let judge = sys::ouriscado_book_check;
        let refusal = unsafe { judge(b, b_len, w, w_len, *mark, free, counts, desks, d_len, work, room, ground, which, lost) };
        let told = self.told(&[4, 8, 8]);
        (refusal, [told[0], told[1], told[2]])
    }

    /// What differs of heads, state and the lent list from those of the second book.
    pub fn words_left(&self, heads: &[u64], state: &State, list: &[u64]) -> Option<String> {
        if let Some(at) = place_of(self.heads.slice(heads.len(), self.placing), heads) {
            return Some(format!("head {at}"));
        }
        if *self.lend::<u64>(&self.mark) != state.mark {
            return Some("mark".into());
        }
        if let Some(at) = place_of(self.free.slice(9, Placing::End), &state.free) {
            return Some(format!("free head {at}"));
        }
        if let Some(at) = place_of(self.counts.slice(WORDS, Placing::End), &state.counts.words()) {
            return Some(format!("count {at}"));
        }
        place_of(self.list.slice(list.len(), self.placing), list).map(|at| format!("number {at} of the list"))
    }

    /// What differs of the list of desks.
    pub fn desks_left(&self, list: &[u8]) -> Option<String> {
        place_of(self.desks.slice(list.len(), self.placing), list).map(|at| format!("byte {at} of the desks"))
    }

    /// What differs of the work list.
    pub fn work_left(&self, work: &[u8]) -> Option<String> {
        place_of(self.work.slice(work.len(), self.placing), work).map(|at| format!("byte {at} of the work list"))
    }
}

/// The list that a call is offered or lent.
pub fn lent_list(call: &Call, list: &mut Vec<u64>) {
    match call {
        Call::Load { fks, .. } | Call::Extend { fks, .. } => list.clone_from(fks),
        Call::Read { room, .. } => {
            list.clear();
            list.resize(*room, FILL);
        }
        _ => {}
    }
}

/// How much of it a call is lent.
pub fn lent_length(call: &Call) -> usize {
    match call {
        Call::Load { fks, .. } | Call::Extend { fks, .. } => fks.len(),
        Call::Read { room, .. } => *room,
        _ => 0,
    }
}

/// The bytes that a work list of a length holds before a judgement.
pub fn work_list(room: usize, work: &mut Vec<u8>) {
    work.clear();
    work.extend((0..room).map(|k| (k * 7 + room) as u8));
}

/// What an enquiry is told of a key: one of the core nothing of desks.
pub fn asked(key: u64, by: By) -> At {
    At { key, by: if let By::List(_) = by { by } else { By::Desk(0) } }
}

/// What a call of the second book tells.
pub fn call_second(
    second: &mut SecondBook,
    call: &Call,
    by: By,
    body: &mut [u8],
    heads: &mut [u64],
    state: &mut State,
    list: &mut [u64],
) -> Result<Numbers, Refused> {
    let at = |key: &u64| At { key: *key, by };
    match call {
        Call::Fresh(limits) => {
            let By::List(desks) = by else { panic!("the core makes no book") };
            second.fresh(body, heads, state, desks, limits).map(|()| [0; OUTS])
        }
        Call::Load { key, fks, fit } => second.load(body, heads, state, at(key), fks, *fit).map(|pages| numbers([pages])),
        Call::Append { key, fk } => second.append(body, heads, state, at(key), *fk).map(|a| {
            let [kind, class, used, place] = numbers_theirs(&a.place);
            numbers([kind, class, used, place, a.rewritten])
        }),
        Call::Read { key, .. } => {
            let listed = second.read(body, heads, state, asked(*key, by), list)?;
            Ok(numbers([listed.length, listed.pages, second.padded(body, heads, *key)]))
        }
        Call::Drop { key } => second.drop(body, heads, state, at(key)).map(|length| numbers([length])),
        Call::Extend { key, fks } => second.extend(body, heads, state, at(key), fks).map(|e| {
            let [kind, class, used, place] = numbers_theirs(&e.place);
            [e.count, e.refusal().into(), kind, class, used, place, e.moves, e.rewritten]
        }),
    }
}

/// The answer of a call that tells something or is refused.
pub fn answer_of(told: Result<Numbers, Refused>) -> Answer {
    match told {
        Ok(told) => Answer { refusal: 0, told },
        Err(refused) => Answer { refusal: refused.number(), told: [0; OUTS] },
    }
}

/// What is wrong with an answer of ours where the second book gives another.
pub fn answer_differs(call: &Call, given: Given, ours: &Answer, theirs: &Answer) -> Option<String> {
    let said = || format!("{call:?} {given:?}: answers {} {:?} in place of {} {:?}", ours.refusal, ours.told, theirs.refusal, theirs.told);
    (ours != theirs).then(said)
}

/// What is wrong with the length of a key's list that ours tells where the second book tells another.
pub fn length_differs(key: u64, given: Given, ours: &Answer, told: Result<u64, Refused>) -> Option<String> {
    let theirs = answer_of(told.map(|length| numbers([length])));
    let said =
        || format!("length of key {key} {given:?}: {} {:?} in place of {} {:?}", ours.refusal, ours.told, theirs.refusal, theirs.told);
    (*ours != theirs).then(said)
}

/// Compares what ours judged with the second book's judgement.
pub fn verdict_differs(check: &Check, ours: (u32, [u64; 3]), judged: &Result<Verdict, u32>) -> Option<String> {
    let wanted = judged.map_or_else(|refusal| (refusal, [0; 3]), |v| (0, [v.ground as u64, v.which, v.lost]));
    (ours != wanted).then(|| format!("{check:?}: judges {ours:?} in place of {wanted:?} ({judged:?})"))
}

/// Both books.
pub struct Pair {
    ours: Ours,
    pub second: SecondBook,
    pub body: Vec<u8>,
    pub heads: Vec<u64>,
    pub state: State,
    /// The list that the last call was offered or lent.
    pub list: Vec<u64>,
    /// The work list that the last judgement was lent.
    work: Vec<u8>,
    /// Why the second book turned the last call back.
    pub refused: Option<Refused>,
}

/// A call of ours with the part of the comparison and what it is called on, to be said if it faults.
pub struct Running<'a>(pub &'static str, pub &'a dyn Debug, pub &'a str);

impl Saying for Running<'_> {
    fn say(&self, wrong: &str) -> String {
        format!("{}, {}: {:?}: {wrong}", self.0, self.2, self.1)
    }
}

impl Default for Pair {
    fn default() -> Pair {
        let ours = Ours::new(Area::new(MOST_BODY), MOST_BODY / 128 + MORE_WORK);
        let (second, list, work) = (SecondBook::default(), Vec::new(), Vec::new());
        Pair { ours, second, body: Vec::new(), heads: Vec::new(), state: State::at(0), list, work, refused: None }
    }
}

impl Pair {
    /// Gives both books a body, heads and a state, ours flush with the page behind or with the page before.
    pub fn begin(&mut self, body: Vec<u8>, heads: Vec<u64>, state: State, placing: Placing) {
        (self.body, self.heads, self.state) = (body, heads, state);
        self.ours.placing = placing;
        self.copy();
    }

    /// Gives ours what the second book holds.
    pub fn copy(&mut self) {
        self.ours.body.slice(self.body.len(), self.ours.placing).copy_from_slice(&self.body);
        self.ours.heads.slice(self.heads.len(), self.ours.placing).copy_from_slice(&self.heads);
        self.ours.put_state(&self.state);
    }

    /// Calls both on what is given, and tells the answer; or what differs.
    pub fn call(&mut self, call: &Call, given: Given, where_: &str) -> Result<Answer, String> {
        lent_list(call, &mut self.list);
        let (whole, lent) = (self.whole(), lent_length(call));
        let ours = during(&Running("book", &(call, given), where_), || self.ours.call(call, whole, given, &self.list[..lent]));
        let (part, words) = (&mut self.body[..given.body], &mut self.heads[..given.heads]);
        let told = call_second(&mut self.second, call, given.by, part, words, &mut self.state, &mut self.list);
        self.refused = told.err();
        let theirs = answer_of(told);
        if let Some(what) = answer_differs(call, given, &ours, &theirs) {
            return Err(what);
        }
        if let Call::Read { key, .. } = *call {
            self.length(key, given, where_)?;
        }
        let desks = if let By::List(list) = given.by { self.ours.desks_left(list) } else { None };
        match self.left(lent).or(desks) {
            Some(what) => Err(format!("{call:?} {given:?}: answers {} and leaves another {what}", ours.refusal)),
            None => Ok(theirs),
        }
    }

    /// Has both tell how many numbers a key has that was read; or what differs.
    fn length(&mut self, key: u64, given: Given, where_: &str) -> Result<(), String> {
        let ours = during(&Running("book", &("length", key, given), where_), || self.ours.length(key, self.whole(), given));
        let told = self.second.length(&self.body[..given.body], &self.heads[..given.heads], &self.state, asked(key, given.by));
        length_differs(key, given, &ours, told).map_or(Ok(()), Err)
    }

    /// Has both judge a start, and tells the verdict or the refusal's number; or what differs. Body, heads and state stay.
    pub fn check(&mut self, check: &Check, where_: &str) -> Result<Result<Verdict, u32>, String> {
        work_list(check.room, &mut self.work);
        let ours = during(&Running("book", check, where_), || self.ours.check(check, self.whole(), &self.work));
        let judged = self.second.check(&self.body[..check.body], &self.heads[..check.heads], &self.state, &check.desks, &mut self.work);
        let judged = judged.map_err(Refused::number);
        if let Some(what) = verdict_differs(check, ours, &judged) {
            return Err(what);
        }
        match self.left(0).or_else(|| self.ours.work_left(&self.work)) {
            Some(what) => Err(format!("{check:?}: judges {ours:?} and leaves another {what}")),
            None => Ok(judged),
        }
    }

    /// The lengths of body and heads.
    fn whole(&self) -> (usize, usize) {
        (self.body.len(), self.heads.len())
    }

    /// What differs of all that the books hold.
    fn left(&self, lent: usize) -> Option<String> {
        let body = place_of(self.ours.body.slice(self.body.len(), self.ours.placing), &self.body);
        let body = body.map(|at| format!("byte {at} of the body"));
        body.or_else(|| self.ours.words_left(&self.heads, &self.state, &self.list[..lent]))
    }
}
