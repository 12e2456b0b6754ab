//! The second book's judgement of a start, from docs/FORMAT.md: whether a body, heads and state that were written elsewhere are a book to go
//! on with, and else the first fault. Blocks that are claimed are kept as intervals, sorted by where they begin.
use crate::second_book::desks::{pages_of, past, DESKS};
use crate::second_book::keys::{Held, Key};
use crate::second_book::space::{State, PAGE_CLASS};
use crate::second_book::{listed, Refused, SecondBook};
use oracle::scripthash_layout::slab_bytes;
use std::collections::BTreeMap;

/// What is wrong with a start, in words.
pub type Fault = &'static str;

pub const UNSOUND: Fault = "a key isn't sound";
pub const SLAB_SHARES: Fault = "a key's slab shares bytes with another key's block";
pub const PAGE_SHARES: Fault = "a key's page shares bytes with another key's block";
pub const HEAD_STRAYS: Fault = "a free head leads to no block";
pub const LINK_STRAYS: Fault = "a freed block's link leads to no block";
pub const HELD: Fault = "a freed block shares bytes with a key's";
pub const COMES_BACK: Fault = "a free list comes back to itself";
pub const TWO_LISTS: Fault = "a freed block shares bytes with one of another list";

pub const COUNTS_EXCEED: Fault = "more pages are counted than the body has";
pub const FREED_UNTRUE: Fault = "freed pages aren't as many as their list has";
pub const HELD_UNTRUE: Fault = "a desk's pages aren't those of its keys";
pub const HELD_HIGH: Fault = "a desk holds more than its ceiling";
pub const RESERVE_HIGH: Fault = "a desk's reserve is above its ceiling";
pub const LACKS: Fault = "the desks lack more pages than are to be had";

/// Every fault that a start can be met with. That a key shares with itself can't be met: a page that comes twice doesn't rise.
pub const FAULTS: &[Fault] = &[
    UNSOUND,
    SLAB_SHARES,
    PAGE_SHARES,
    HEAD_STRAYS,
    LINK_STRAYS,
    HELD,
    COMES_BACK,
    TWO_LISTS,
    COUNTS_EXCEED,
    FREED_UNTRUE,
    HELD_UNTRUE,
    HELD_HIGH,
    RESERVE_HIGH,
    LACKS,
];

/// What a judgement tells: the ground's number, 0 for a good start, the key, class or desk of the first fault, the fault in words, and of a
/// good start the units of 16 bytes that belong to nobody.
#[derive(Clone, Copy, Debug, PartialEq, Eq)]
pub struct Verdict {
    pub ground: u32,
    pub which: u64,
    pub fault: Option<Fault>,
    pub lost: u64,
}

/// The number of a fault's ground.
fn ground(fault: Fault) -> u32 {
    match fault {
        UNSOUND => 1,
        SLAB_SHARES | PAGE_SHARES => 2,
        HEAD_STRAYS | LINK_STRAYS => 3,
        HELD | COMES_BACK | TWO_LISTS => 4,
        COUNTS_EXCEED => 5,
        FREED_UNTRUE => 6,
        HELD_UNTRUE => 7,
        HELD_HIGH => 8,
        RESERVE_HIGH => 9,
        _ => 10,
    }
}

/// Whose a claimed block is.
#[derive(Clone, Copy, PartialEq, Eq)]
enum Owner {
    Key,
    List(u8),
}

/// The blocks claimed so far: where each begins, with where it ends and whose it is. None of them shares a byte with another.
#[derive(Default)]
struct Claims(BTreeMap<u64, (u64, Owner)>);

impl Claims {
    /// Claims a block, or tells with whose it shares bytes.
    fn claim(&mut self, class: u8, off: u64, owner: Owner) -> Result<(), Owner> {
        let end = off + slab_bytes(class);
        match self.0.range(..end).next_back() {
            Some((_, &(before, other))) if before > off => Err(other),
            _ => {
                self.0.insert(off, (end, owner));
                Ok(())
            }
        }
    }

    /// Claims what a key holds.
    fn claim_key(&mut self, held: Held, pages: &[u64]) -> Result<(), Fault> {
        match held {
            Held::Empty | Held::Inline => Ok(()),
            Held::Slab { class, off, .. } => self.claim(class, off, Owner::Key).map_err(|_| SLAB_SHARES),
            Held::Pages { .. } => pages.iter().try_for_each(|&off| self.claim(PAGE_CLASS, off, Owner::Key)).map_err(|_| PAGE_SHARES),
        }
    }

    /// Claims the blocks of a free list. It ends: where it comes back, it meets a block of its own.
    fn claim_list(&mut self, body: &[u8], mark: u64, class: u8, head: u64) -> Result<(), Fault> {
        let (mut off, mut strays) = (head, HEAD_STRAYS);
        while off != 0 {
            if !stands(class, off, mark) {
                return Err(strays);
            }
            self.claim(class, off, Owner::List(class)).map_err(|owner| match owner {
                Owner::Key => HELD,
                Owner::List(other) if other == class => COMES_BACK,
                Owner::List(_) => TWO_LISTS,
            })?;
            off = u64::from_le_bytes(body[off as usize..][..8].try_into().expect("eight bytes"));
            strays = LINK_STRAYS;
        }
        Ok(())
    }

    /// How many pages are freed.
    fn freed(&self) -> u64 {
        self.0.values().filter(|(_, owner)| *owner == Owner::List(PAGE_CLASS)).count() as u64
    }

    /// The bytes between 4,096 and the mark that no block has: those before each block, behind the one before it, and behind the last.
    fn gaps(&self, mark: u64) -> u64 {
        let (mut gaps, mut at) = (0, 4096);
        for (&off, &(end, _)) in &self.0 {
            gaps += off - at;
            at = end;
        }
        gaps + (mark - at)
    }
}

/// Whether a block of a class can stand at an offset below the mark.
fn stands(class: u8, off: u64, mark: u64) -> bool {
    let unit = if class == PAGE_CLASS { 4096 } else { 16 };
    off.is_multiple_of(unit) && off >= 4096 && off <= mark.saturating_sub(slab_bytes(class))
}

/// The first fault of counts, with its desk: by what is freed and what each desk's keys hold.
fn fault_of_counts(body: usize, state: &State, freed: u64, held: &[u64; DESKS]) -> Result<(), (u64, Fault)> {
    let (counts, past) = (&state.counts, past(body, state.mark));
    if 1 + counts.held.iter().sum::<u64>() + counts.freed + past > pages_of(body) {
        return Err((0, COUNTS_EXCEED));
    }
    if counts.freed != freed {
        return Err((0, FREED_UNTRUE));
    }
    for (desk, (&counted, &held)) in counts.held.iter().zip(held).enumerate() {
        let ceiling = counts.limits.ceiling[desk];
        let faults =
            [(counted != held, HELD_UNTRUE), (counted > ceiling, HELD_HIGH), (counts.limits.reserve[desk] > ceiling, RESERVE_HIGH)];
        if let Some((_, fault)) = faults.iter().find(|f| f.0) {
            return Err((desk as u64, fault));
        }
    }
    if freed + past < counts.lacks() {
        return Err((0, LACKS));
    }
    Ok(())
}

/// The first fault of a book that keeps the limits, with its key, class or desk; or the units that belong to nobody.
fn first_fault(key: &mut Key, body: &[u8], heads: &[u64], state: &State, list: &[u8]) -> Result<u64, (u64, Fault)> {
    let (mut claims, mut by_desk) = (Claims::default(), [0; DESKS]);
    for (which, &word) in heads.iter().enumerate() {
        let at = |fault| (which as u64, fault);
        let held = key.whole(body, state.mark, word).map_err(|_| at(UNSOUND))?;
        claims.claim_key(held, &key.pages).map_err(at)?;
        by_desk[usize::from(list[which])] += key.pages.len() as u64;
    }
    for class in 0..=PAGE_CLASS {
        claims.claim_list(body, state.mark, class, state.free[class as usize]).map_err(|fault| (class as u64, fault))?;
    }
    fault_of_counts(body.len(), state, claims.freed(), &by_desk)?;
    Ok(claims.gaps(state.mark) / 16)
}

impl SecondBook {
    /// Judges a start with its list of desks. The work list needs a byte for each 128 of the body; these are 0 afterwards.
    pub fn check(&mut self, body: &[u8], heads: &[u64], state: &State, list: &[u8], work: &mut [u8]) -> Result<Verdict, Refused> {
        listed(body, heads, state, list)?;
        let Some(used) = work.get_mut(..body.len() / 128) else {
            return Err(Refused::Number(34));
        };
        used.fill(0);
        let found = first_fault(&mut self.key, body, heads, state, list);
        Ok(match found {
            Ok(lost) => Verdict { ground: 0, which: 0, fault: None, lost },
            Err((which, fault)) => Verdict { ground: ground(fault), which, fault: Some(fault), lost: 0 },
        })
    }
}

#[cfg(test)]
mod tests {
    use super::*;
    use crate::lent::{Area, Placing, READ_WRITE};
    use crate::second_book::desks::{At, By, NO_LIMITS};
    use crate::second_book::space::SLABS_END;
    use crate::second_book::{Fit, MOST_BODY};

    /// A book that is judged, all of whose keys but the last are desk 0's; that one is desk 2's.
    struct Judged(SecondBook, Vec<u8>, Vec<u64>, State);

    const DESK_OF: [u8; 3] = [0, 0, 2];

    /// A key of that book.
    fn at(key: u64) -> At<'static> {
        At { key, by: By::List(&DESK_OF) }
    }

    impl Judged {
        /// A fresh book of three keys; the first two have slabs of class 0 at 4,096 and 4,112, and what the third had is freed.
        fn new() -> Judged {
            let mut b = Judged(SecondBook::default(), vec![0xa5; 16_384], vec![0; 3], State::at(0));
            b.0.fresh(&b.1, &mut b.2, &mut b.3, &DESK_OF, &NO_LIMITS).unwrap();
            for key in 0..3 {
                b.0.load(&mut b.1, &mut b.2, &mut b.3, at(key), &[5, 6 + key], Fit::Spare).unwrap();
            }
            b.0.drop(&mut b.1, &mut b.2, &mut b.3, at(2)).unwrap();
            b
        }

        fn verdict(&mut self) -> (u32, u64, Option<Fault>) {
            let v = self.0.check(&self.1, &self.2, &self.3, &DESK_OF, &mut [7; 1024]).unwrap();
            (v.ground, v.which, v.fault)
        }

        /// The units that belong to nobody.
        fn lost(&mut self) -> u64 {
            self.0.check(&self.1, &self.2, &self.3, &DESK_OF, &mut [7; 1024]).unwrap().lost
        }

        /// Writes the link of a freed block.
        fn link(&mut self, off: usize, to: u64) {
            self.1[off..off + 8].copy_from_slice(&to.to_le_bytes());
        }
    }

    #[test]
    fn own_books_are_good() {
        let mut b = Judged::new();
        assert_eq!((b.3.mark, b.3.free[0]), (4144, 4128));
        assert_eq!(b.verdict(), (0, 0, None));
        b.0.load(&mut b.1, &mut b.2, &mut b.3, at(2), &(1..=300).collect::<Vec<u64>>(), Fit::Spare).unwrap();
        assert_eq!(b.verdict(), (0, 0, None));
        b.0.drop(&mut b.1, &mut b.2, &mut b.3, at(2)).unwrap();
        assert_eq!(b.verdict(), (0, 0, None));
    }

    /// A book's own blocks leave nothing; a lost head word or free head leaves its blocks, and a word with one number leaves nothing.
    #[test]
    fn lost_units() {
        let mut b = Judged::new();
        assert_eq!(b.lost(), 0);
        b.3.free[0] = 0; // the slab that was freed
        assert_eq!(b.lost(), 1);
        b.2[1] = 0; // the second slab
        assert_eq!(b.lost(), 2);
        b.2[0] = 5; // one number, in place of the first slab
        assert_eq!(b.lost(), 3);
        b.2[0] = 0;
        assert_eq!((b.lost(), b.verdict()), (3, (0, 0, None)));
        b = Judged::new();
        b.0.load(&mut b.1, &mut b.2, &mut b.3, at(2), &(1..=300).collect::<Vec<u64>>(), Fit::Spare).unwrap();
        assert_eq!(b.lost(), 0);
        (b.2[2], b.3.counts.held[2]) = (0, 0); // a page
        assert_eq!(b.lost(), 256);
    }

    /// A slab across the end of slabs stands, held and freed. Past that end the gap before a page is left to nobody: 255 units of this one.
    #[test]
    fn lost_units_past_2_40() {
        let Some(area) = Area::untouchable(MOST_BODY) else {
            return;
        };
        area.allow((SLABS_END - 4096) as usize, 4 * 4096, READ_WRITE);
        let body: &mut [u8] = area.slice(MOST_BODY, Placing::Start);
        let (mut book, mut heads) = (SecondBook::default(), [1 << 62 | 1 << 56 | 3 << 40 | (SLABS_END - 16), 0]);
        let (mut state, list) = (State::at(SLABS_END + 16), [0, 0]);
        body[(SLABS_END - 16) as usize..][..5].copy_from_slice(&[3, 0, 1, 1, 1]);
        let lost = (SLABS_END - 4096 - 16) / 16;
        assert_eq!(first_fault(&mut book.key, body, &heads, &state, &list), Ok(lost));
        book.drop(body, &mut heads, &mut state, At { key: 0, by: By::List(&list) }).unwrap();
        assert_eq!(first_fault(&mut book.key, body, &heads, &state, &list), Ok(lost));
        book.load(body, &mut heads, &mut state, At { key: 1, by: By::List(&list) }, &(1..=300).collect::<Vec<u64>>(), Fit::Spare).unwrap();
        assert_eq!((first_fault(&mut book.key, body, &heads, &state, &list), state.mark), (Ok(lost + 255), SLABS_END + 8192));
    }

    #[test]
    fn keys_come_first() {
        let mut b = Judged::new();
        b.3.free[0] = 8;
        assert_eq!(b.verdict(), (3, 0, Some(HEAD_STRAYS)));
        b.2[2] = b.2[1];
        assert_eq!(b.verdict(), (2, 2, Some(SLAB_SHARES)));
        b.1[4096] = 3;
        assert_eq!(b.verdict(), (1, 0, Some(UNSOUND)));
    }

    #[test]
    fn free_lists() {
        let mut b = Judged::new();
        for (to, wanted) in [
            (0, (0, 0, None)),
            (4128, (4, 0, Some(COMES_BACK))),
            (4112, (4, 0, Some(HELD))),
            (4144, (3, 0, Some(LINK_STRAYS))),
            (4120, (3, 0, Some(LINK_STRAYS))),
            (u64::MAX - 15, (3, 0, Some(LINK_STRAYS))),
        ] {
            b.link(4128, to);
            assert_eq!(b.verdict(), wanted, "{to}");
        }
        b.link(4128, 0);
        b.3.free[1] = 4096;
        assert_eq!(b.verdict(), (4, 1, Some(HELD)));
        b.3.mark = 4160;
        b.3.free[1] = 4128;
        assert_eq!(b.verdict(), (4, 1, Some(TWO_LISTS)));
        b.3.free[1] = 4144;
        assert_eq!(b.verdict(), (3, 1, Some(HEAD_STRAYS)));
    }

    #[test]
    fn work_lists() {
        let mut b = Judged::new();
        let mut work = [7; 134];
        let short = b.0.check(&b.1, &b.2, &b.3, &DESK_OF, &mut work[..127]);
        assert_eq!((short, work), (Err(Refused::Number(34)), [7; 134]));
        b.3.mark += 8;
        assert_eq!(b.0.check(&b.1, &b.2, &b.3, &DESK_OF, &mut work[..127]), Err(Refused::Number(1)));
        b.3.mark -= 8;
        assert!(b.0.check(&b.1, &b.2, &b.3, &DESK_OF, &mut work).is_ok());
        assert!(work[..128].iter().all(|w| *w == 0) && work[128..] == [7; 6]);
    }

    /// A book with a page of desk 2, a freed page, and limits within which it is.
    fn with_pages() -> Judged {
        let mut b = Judged::new();
        let row: Vec<u64> = (1..=5000).collect();
        b.0.load(&mut b.1, &mut b.2, &mut b.3, at(2), &row, Fit::Spare).unwrap();
        b.0.drop(&mut b.1, &mut b.2, &mut b.3, at(2)).unwrap();
        b.0.load(&mut b.1, &mut b.2, &mut b.3, at(2), &row[..256], Fit::Spare).unwrap();
        b.0.append(&mut b.1, &mut b.2, &mut b.3, at(2), 257).unwrap();
        assert_eq!((b.3.counts.freed, b.3.counts.held[2], b.3.mark, b.verdict()), (1, 1, 16_384, (0, 0, None)));
        b
    }

    /// Each ground of counts, and which comes first: a desk's three together, and before the next desk's.
    #[test]
    fn counts_of_starts() {
        let mut b = with_pages();
        let good = b.3;
        b.3.counts.limits.reserve[5] = 2;
        assert_eq!(b.verdict(), (10, 0, Some(LACKS)));
        b.3.counts.limits.ceiling[5] = 1;
        assert_eq!(b.verdict(), (9, 5, Some(RESERVE_HIGH)));
        b.3.counts.limits.ceiling[2] = 0;
        assert_eq!(b.verdict(), (8, 2, Some(HELD_HIGH)));
        (b.3.counts.held[2], b.3.counts.held[4]) = (0, 1);
        assert_eq!(b.verdict(), (7, 2, Some(HELD_UNTRUE)));
        b.3.counts.freed = 0;
        assert_eq!(b.verdict(), (6, 0, Some(FREED_UNTRUE)));
        b.3.counts.held[4] = 4;
        assert_eq!(b.verdict(), (5, 0, Some(COUNTS_EXCEED)));
        b.3.free[8] = 8;
        assert_eq!(b.verdict(), (3, 8, Some(HEAD_STRAYS)));
        b.3 = good;
        b.3.counts.limits.reserve[5] = 1;
        assert_eq!(b.verdict(), (0, 0, None));
        (b.3.counts.limits.reserve[2], b.3.counts.limits.ceiling[2]) = (1, 1);
        assert_eq!(b.verdict(), (0, 0, None));
    }

    /// Just as many counted pages as the body has are true or not; one more exceeds them.
    #[test]
    fn counts_that_exceed() {
        let mut b = with_pages();
        for (held, wanted) in [(1, (7, 0, Some(HELD_UNTRUE))), (2, (5, 0, Some(COUNTS_EXCEED)))] {
            b.3.counts.held[0] = held;
            assert_eq!(b.verdict(), wanted);
        }
    }

    /// 1 for counts and 39 for the list come before 34.
    #[test]
    fn counts_and_lists_of_checks() {
        let mut b = Judged::new();
        let refused = |b: &Judged, list: &[u8]| SecondBook::default().check(&b.1, &b.2, &b.3, list, &mut []);
        assert_eq!(refused(&b, &DESK_OF), Err(Refused::Number(34)));
        for list in [&[0, 0][..], &[0; 4], &[0, 16, 0], &[]] {
            assert_eq!(refused(&b, list), Err(Refused::Number(39)));
        }
        b.3.counts.freed = 5;
        assert_eq!(refused(&b, &[]), Err(Refused::Number(1)));
    }
}
