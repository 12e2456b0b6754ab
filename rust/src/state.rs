//! A book's state.
use crate::limits::{COUNT_WORDS, DESKS, FREE_HEADS, NO_CEILING, STATE_WORDS};

/// What can't fail: the words are so many.
const IN_TWO: &str = "nine free heads, and 49 counts";

/// A book's state: the mark, up to which the body was ever used, for each of the classes 0 to 8 the offset of its first freed block, and the
/// counts: how many pages are freed, and of each of the 16 desks the pages that it holds, its reserve and its ceiling.
///
/// It belongs to the body and the head words of the same moment: keep, store and restore the three together.
#[derive(Clone, Copy, Debug, PartialEq, Eq, Hash)]
pub struct State(pub [u64; STATE_WORDS]);

/// Words of 0, which are no book's.
impl Default for State {
    fn default() -> State {
        State([0; STATE_WORDS])
    }
}

impl State {
    /// The state of a book without desks, as of one that other software wrote: the mark, the first freed block of each class, how many pages
    /// are freed, and how many hold lists. [`Book::open`](crate::Book::open) judges whether these are true.
    #[must_use]
    pub fn without_desks(mark: u64, free: [u64; FREE_HEADS], freed_pages: u64, held_pages: u64) -> State {
        let mut state = State::default();
        let (own_mark, own_free, counts) = state.lent();
        (*own_mark, *own_free, counts[0], counts[1]) = (mark, free, freed_pages, held_pages);
        counts[1 + 2 * DESKS..].fill(NO_CEILING);
        state
    }

    /// The offset up to which the body was ever used.
    #[must_use]
    pub fn mark(&self) -> u64 {
        self.0[0]
    }

    /// The offset of each class's first freed block, 0 where there is none.
    #[must_use]
    pub fn free_heads(&self) -> &[u64] {
        &self.0[1..1 + FREE_HEADS]
    }

    /// The counts, as they are stored: freed pages, the pages of each desk, the reserves, the ceilings.
    #[must_use]
    pub fn counts(&self) -> &[u64] {
        &self.0[1 + FREE_HEADS..]
    }

    /// How many pages are freed.
    #[must_use]
    pub fn freed_pages(&self) -> u64 {
        self.counts()[0]
    }

    /// How many pages a desk holds.
    ///
    /// # Panics
    ///
    /// Where there is no such desk.
    #[must_use]
    pub fn held_pages(&self, desk: usize) -> u64 {
        self.counts()[1..][..DESKS][desk]
    }

    /// The pages that are kept for a desk.
    ///
    /// # Panics
    ///
    /// Where there is no such desk.
    #[must_use]
    pub fn reserve(&self, desk: usize) -> u64 {
        self.counts()[1 + DESKS..][..DESKS][desk]
    }

    /// The most pages that a desk gets.
    ///
    /// # Panics
    ///
    /// Where there is no such desk.
    #[must_use]
    pub fn ceiling(&self, desk: usize) -> u64 {
        self.counts()[1 + 2 * DESKS..][desk]
    }

    /// The mark, the free heads and the counts, as they are lent.
    pub(crate) fn parts(&self) -> (u64, &[u64; FREE_HEADS], &[u64; COUNT_WORDS]) {
        let [mark, rest @ ..] = &self.0;
        let (free, counts) = rest.split_first_chunk().expect(IN_TWO);
        (*mark, free, counts.try_into().expect(IN_TWO))
    }

    /// The same, to be changed.
    pub(crate) fn lent(&mut self) -> (&mut u64, &mut [u64; FREE_HEADS], &mut [u64; COUNT_WORDS]) {
        let [mark, rest @ ..] = &mut self.0;
        let (free, counts) = rest.split_first_chunk_mut().expect(IN_TWO);
        (mark, free, counts.try_into().expect(IN_TWO))
    }
}
