//! Random histories on large bodies, each from a start of random blocks before a mark.
use crate::lockstep::far::{end_of, Far};
use crate::lockstep::large::tally::Tally;
use crate::lockstep::large::{make, windows, E, END, FULL, KEYS, LOW, MARKS, P};
use crate::lockstep::lists;
use crate::lockstep::pair::{Answer, Call};
use crate::rng::Rng;
use crate::second_book::space::PAGE_CLASS;
use crate::second_book::{Fit, LIMIT};

/// The calls of a history, and how many pages behind the mark a call may go to.
const CALLS: u64 = 80;
const MOST_TAKEN: u64 = 8;

/// A random history that runs: the last number and the length of each key, as far as they are known.
struct Random<'a> {
    rng: Rng,
    far: &'a mut Far,
    lasts: Vec<(u64, usize)>,
    /// The key that appends go to, and how many are still to come.
    run: (usize, u64),
    /// Whether the start has pages alone, most of them freed.
    pages: bool,
}

impl Random<'_> {
    /// Writes blocks side by side from an offset up to another: held, freed or nobody's.
    fn fill(&mut self, from: u64, to: u64, free: &mut [Vec<u64>; 9]) {
        let mut at = from;
        while at < to {
            let class = if self.pages { PAGE_CLASS } else { self.rng.pick(&[0, 1, 1, 2, 3, 4, 5, 6, 7, 8, 8, 8]) };
            // Now and then a slab that lies across the end of slabs.
            let across = at < E && end_of(class, at) > E && class < PAGE_CLASS && self.rng.below(2) == 0;
            let class = if across || end_of(class, at) <= to.min(if at < E { E } else { END }) { class } else { 0 };
            if end_of(class, at) > to || (class == PAGE_CLASS && !at.is_multiple_of(P)) {
                at += 16;
                continue;
            }
            let key = self.far.heads.iter().position(|&word| word == 0).filter(|_| class == PAGE_CLASS || at < E);
            let fate = if self.pages { self.rng.pick(&[0, 1, 1, 1, 1, 2]) } else { self.rng.below(3) };
            match (if across { 0 } else { fate }, key) {
                (0, Some(key)) if key < KEYS - 3 => self.hold(key, class, at),
                (1 | 0, _) => free[class as usize].push(at),
                _ => {}
            }
            at = end_of(class, at);
        }
    }

    /// Has a key hold a block.
    fn hold(&mut self, key: usize, class: u8, at: u64) {
        let (room, most) = if class == PAGE_CLASS { (4072, 4072) } else { (end_of(class, 0) as usize - 2, (4usize << class).min(256)) };
        let bits = self.rng.pick(&[0, 3, 7, 20]);
        let (mut fks, mut left): (Vec<u64>, usize) = (Vec::new(), room);
        while fks.len() < most {
            let next = fks.last().copied().unwrap_or(0) + 1 + self.rng.bits(bits);
            let len = oracle::uleb128_len(next - fks.last().copied().unwrap_or(0));
            if len > left || (fks.len() >= 2 && self.rng.below(most as u64 + 8) == 0) {
                break;
            }
            left -= len;
            fks.push(next);
        }
        self.lasts[key] = (fks.last().copied().unwrap_or(0), fks.len());
        if class == PAGE_CLASS {
            let creates = self.rng.pick(&[fks.len() as u32, fks.len() as u32, 0, FULL, FULL - 1]);
            self.far.put_pages(key, &[(at, &fks)], creates);
        } else {
            self.far.put_slab(key, class, at, &fks);
        }
    }

    fn next_call(&mut self) -> Call {
        if self.run.1 > 0 {
            self.run.1 -= 1;
            return self.append(self.run.0);
        }
        let key = self.rng.below(KEYS as u64) as usize;
        match self.rng.below(10) {
            0..3 => self.load(),
            3..5 => Call::Drop { key: key as u64 },
            5..7 => {
                let n = self.lasts[key].1;
                Call::Read { key: key as u64, room: self.rng.pick(&[n, n, n, n + 9, n.saturating_sub(1)]) }
            }
            _ => {
                self.run = (key, self.rng.pick(&[0, 2, 9, 30]));
                if self.rng.below(3) == 0 {
                    self.extend(key)
                } else {
                    self.append(key)
                }
            }
        }
    }

    /// An extend by some numbers, the last of which may not rise.
    fn extend(&mut self, key: usize) -> Call {
        let (bits, len) = (self.rng.pick(&[0, 7, 7, 20]), self.rng.pick(&[0, 1, 9, 40, 300]));
        let mut fks = Vec::new();
        for _ in 0..len {
            let last = fks.last().copied().unwrap_or(self.lasts[key].0);
            fks.push((last + 1 + self.rng.bits(bits)).min(LIMIT - 1));
        }
        if self.rng.below(6) == 0 {
            fks.push(self.lasts[key].0);
        }
        Call::Extend { key: key as u64, fks }
    }

    fn append(&mut self, key: usize) -> Call {
        let bits = self.rng.pick(&[0, 7, 7, 20, 50]);
        let fk = self.lasts[key].0 + 1 + self.rng.bits(bits);
        Call::Append { key: key as u64, fk: fk.min(LIMIT - 1) }
    }

    /// A load onto an empty key, if there is one.
    fn load(&mut self) -> Call {
        let any = self.rng.below(KEYS as u64) as usize;
        let key = self.far.heads.iter().position(|&word| word == 0).unwrap_or(any) as u64;
        let fit = self.rng.pick(&[Fit::Spare, Fit::Tight]);
        let fks = match self.rng.below(8) {
            0 => {
                let (pages, left) = (self.rng.below(if self.pages { 5 } else { 3 }), self.rng.pick(&[0, 1, 9]));
                lists::of_pages(&mut self.rng, pages, left, 3)
            }
            1..4 => lists::of_slots(&mut self.rng, false),
            4..6 => lists::of_payload(&mut self.rng),
            _ => {
                let len = 1 + self.rng.below(300);
                lists::of_length(&mut self.rng, len, false)
            }
        };
        Call::Load { key, fks, fit }
    }

    /// Learns from an answer.
    fn learn(&mut self, call: &Call, answer: &Answer) {
        if answer.refusal != 0 {
            self.run.1 = self.run.1.min(3);
            return;
        }
        match call {
            Call::Load { key, fks, .. } => self.lasts[*key as usize] = (fks.last().copied().unwrap_or(0), fks.len()),
            Call::Append { key, fk } => self.lasts[*key as usize] = (*fk, self.lasts[*key as usize].1 + 1),
            Call::Drop { key } => self.lasts[*key as usize] = (0, 0),
            Call::Extend { key, fks } => {
                let (last, count) = (&mut self.lasts[*key as usize], answer.extension().count as usize);
                *last = (fks[..count].last().copied().unwrap_or(last.0), last.1 + count);
            }
            _ => {}
        }
    }
}

/// Runs a random history from a start of random blocks.
pub fn random(mut rng: Rng, far: &mut Far, tally: &mut Tally, name: &str) -> Result<u64, (u64, String)> {
    let (mark_name, mark) = rng.pick(&MARKS);
    let before = rng.pick(&[0, 0, 1, 7, 128, 255]) * 16;
    let (mark, exact) = (mark - before, before == 0);
    let len = rng.pick(&[END, END, END, mark.next_multiple_of(P) + 2 * P, mark.next_multiple_of(P) + 9 * P]).min(END);
    let around = windows(len, mark);
    let reach = around[1].end as u64;
    far.begin(len as usize, KEYS, mark, around, rng.pick(&[0, 0xa5, 0xff]));
    tally.add(format!("a start with the mark {} {mark_name}", if exact { "at" } else { "before" }));
    let mut history = Random { rng, far, lasts: vec![(0, 0); KEYS], run: (0, 0), pages: false };
    history.pages = history.rng.below(3) == 0;
    let mut free: [Vec<u64>; 9] = Default::default();
    let near = if history.pages { 20 } else { history.rng.pick(&[0, 0, 1, 4]) };
    history.fill((mark / P - near) * P, mark, &mut free);
    if history.rng.below(2) == 0 {
        history.fill(P, LOW * P, &mut free);
    }
    for (class, offs) in free.iter_mut().enumerate() {
        match history.rng.below(3) {
            0 => offs.reverse(),
            1 => (1..offs.len()).rev().for_each(|k| offs.swap(k, history.rng.below(k as u64 + 1) as usize)),
            _ => {}
        }
        history.far.put_free(class as u8, offs);
    }
    history.far.copy_words();
    let mut made = 0;
    while made < CALLS && (reach == len || history.far.state.mark + MOST_TAKEN * P <= reach) {
        made += 1;
        let (call, core) = (history.next_call(), history.rng.below(2) == 0);
        let answer = make(history.far, tally, &call, core, name).map_err(|what| (made, what))?;
        history.learn(&call, &answer);
    }
    Ok(made)
}
