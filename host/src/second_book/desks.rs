//! Desks in the second book: what a call is told of them, the counts of pages, and whether a take leaves the desks what they lack.
use crate::second_book::space::{rounded, PAGE};
use crate::second_book::Refused;

/// How many desks there are.
pub const DESKS: usize = 16;
/// The words of the counts.
pub const WORDS: usize = 1 + 3 * DESKS;

/// What each desk is given when the book is made: a reserve and a ceiling of pages.
#[derive(Clone, Copy, Debug, PartialEq, Eq)]
pub struct Limits {
    pub reserve: [u64; DESKS],
    pub ceiling: [u64; DESKS],
}

/// No reserves, and ceilings that no desk reaches.
pub const NO_LIMITS: Limits = Limits { reserve: [0; DESKS], ceiling: [u64::MAX; DESKS] };

/// The counts: freed pages, the pages that each desk holds, and the desks' limits.
#[derive(Clone, Copy, Debug, PartialEq, Eq)]
pub struct Counts {
    pub freed: u64,
    pub held: [u64; DESKS],
    pub limits: Limits,
}

/// What a call is told of desks: those of all keys, as the book's calls are, or the key's own, as the core's are. A read of the core is told
/// nothing, for which desk 0 stands.
#[derive(Clone, Copy, Debug)]
pub enum By<'a> {
    List(&'a [u8]),
    Desk(u64),
}

/// The key that a call is about, and what it is told of desks.
#[derive(Clone, Copy, Debug)]
pub struct At<'a> {
    pub key: u64,
    pub by: By<'a>,
}

impl Counts {
    /// Those of a fresh book.
    pub fn fresh(limits: Limits) -> Counts {
        Counts { freed: 0, held: [0; DESKS], limits }
    }

    /// The counts as words, in their order.
    pub fn words(&self) -> [u64; WORDS] {
        let lists = [&[self.freed][..], &self.held, &self.limits.reserve, &self.limits.ceiling];
        lists.concat().try_into().expect("as many words")
    }

    /// The counts of words.
    pub fn of_words(words: &[u64; WORDS]) -> Counts {
        let list = |from: usize| words[from..from + DESKS].try_into().expect("a word for each desk");
        Counts { freed: words[0], held: list(1), limits: Limits { reserve: list(17), ceiling: list(33) } }
    }

    /// 1: no freed or held pages and no reserve may be above the body's pages.
    pub fn fit(&self, body: usize) -> Result<(), Refused> {
        let most = pages_of(body);
        if self.freed > most || self.held.iter().chain(&self.limits.reserve).any(|&n| n > most) {
            return Err(Refused::Number(1));
        }
        Ok(())
    }

    /// What the desks still lack of their reserves.
    pub fn lacks(&self) -> u64 {
        self.lacks_after(0, 0)
    }

    /// What they lack after a desk took so many pages.
    fn lacks_after(&self, taker: usize, pages: u64) -> u64 {
        let has = |desk: usize| self.held[desk] + if desk == taker { pages } else { 0 };
        self.limits.reserve.iter().enumerate().map(|(desk, reserve)| reserve.saturating_sub(has(desk))).sum()
    }

    /// 40 and 41: whether a desk may take so many pages, by these counts, and by the freed pages and the mark that the take leaves.
    pub fn allow(&self, body: usize, desk: usize, pages: u64, freed: u64, mark: u64) -> Result<(), Refused> {
        if pages > 0 && self.held[desk] + pages > self.limits.ceiling[desk] {
            return Err(Refused::Number(40));
        }
        if freed + past(body, mark) < self.lacks_after(desk, pages) {
            return Err(Refused::Number(41));
        }
        Ok(())
    }
}

/// The pages of a body, the first included.
pub fn pages_of(body: usize) -> u64 {
    (body / PAGE) as u64
}

/// The whole pages past the rounded mark.
pub fn past(body: usize, mark: u64) -> u64 {
    pages_of(body) - rounded(mark) / PAGE as u64
}

/// 39: a desk for each key, and none above 15.
pub fn list_fits(desks: &[u8], heads: usize) -> Result<(), Refused> {
    if desks.len() != heads || desks.iter().any(|&desk| usize::from(desk) >= DESKS) {
        return Err(Refused::Number(39));
    }
    Ok(())
}

/// 1: no reserve above the body's pages. They are judged before the list.
pub fn reserves_fit(body: usize, limits: &Limits) -> Result<(), Refused> {
    Counts::fresh(*limits).fit(body)
}

/// 39: the reserves of a making, all within the pages to be had, and each within its ceiling.
pub fn limits_fit(body: usize, limits: &Limits) -> Result<(), Refused> {
    let Limits { reserve, ceiling } = limits;
    if reserve.iter().sum::<u64>() > past(body, PAGE as u64) || reserve.iter().zip(ceiling).any(|(r, c)| r > c) {
        return Err(Refused::Number(39));
    }
    Ok(())
}
