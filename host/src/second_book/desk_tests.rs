//! Desks in the second book, by both families of calls: for each point that the requests leave open the smallest input, and the order of
//! refusals. Offsets are in pages unless they are written with P.
use super::*;
use crate::second_book::desks::NO_LIMITS;
use crate::second_book::space::PAGE_CLASS;
use crate::table::numbers_theirs;

pub(super) const P: u64 = PAGE as u64;

/// The two families of calls.
#[derive(Clone, Copy, Debug, PartialEq, Eq)]
pub(super) enum Family {
    List,
    Core,
}
use Family::{Core, List};

/// A book of two keys or one that somebody wrote.
#[derive(Clone)]
pub(super) struct Book {
    pub body: Vec<u8>,
    pub heads: Vec<u64>,
    pub state: State,
    desks: Vec<u8>,
    family: Family,
}

impl Book {
    /// A fresh one of so many pages: no reserves, no ceilings, desk 0 for both keys.
    pub(super) fn new(pages: usize, family: Family) -> Book {
        Book { body: vec![0; pages * PAGE], heads: vec![0; 2], state: State::at(P), desks: vec![0; 2], family }
    }

    /// One whose key 0 has 4,072 one-byte numbers on page 1, with a mark; desk 0 holds that page.
    pub(super) fn full(pages: usize, mark: u64, family: Family) -> Book {
        let mut b = Book::new(pages, family);
        put_only_page(&mut b.body, P, &row(4072));
        (b.heads[0], b.state.mark, b.state.counts.held[0]) = (word(&ShHeadValue::extent(P)), mark, 1);
        b
    }

    /// Key 0 holds the number 1.
    pub(super) fn inline(mut self) -> Book {
        self.heads[0] = 1;
        self
    }

    /// Pages that are freed, from the top of their list.
    pub(super) fn free(mut self, pages: &[u64]) -> Book {
        pages.iter().rev().for_each(|&page| release(&mut self.body, &mut self.state, PAGE_CLASS, page * P));
        self.state.counts.freed = pages.len() as u64;
        self
    }

    pub(super) fn reserve(mut self, desk: usize, pages: u64) -> Book {
        self.state.counts.limits.reserve[desk] = pages;
        self
    }

    pub(super) fn ceiling(mut self, desk: usize, pages: u64) -> Book {
        self.state.counts.limits.ceiling[desk] = pages;
        self
    }

    pub(super) fn held(mut self, desk: usize, pages: u64) -> Book {
        self.state.counts.held[desk] = pages;
        self
    }

    pub(super) fn freed(mut self, pages: u64) -> Book {
        self.state.counts.freed = pages;
        self
    }

    fn desks(mut self, desks: &[u8]) -> Book {
        self.desks = desks.to_vec();
        self
    }

    /// Makes a call on a key, which where it is refused changes nothing, and tells the refusal's number or 0.
    fn call(&mut self, key: u64, call: impl FnOnce(&mut SecondBook, &mut [u8], &mut [u64], &mut State, At) -> Result<(), Refused>) -> u32 {
        let before = self.clone();
        let by = match self.family {
            List => By::List(&before.desks),
            Core => By::Desk(before.desks.get(key as usize).copied().unwrap_or(0).into()),
        };
        let answer = call(&mut SecondBook::default(), &mut self.body, &mut self.heads, &mut self.state, At { key, by });
        assert!(answer.is_ok() || (self.body == before.body && self.heads == before.heads && self.state == before.state));
        answer.map_or_else(Refused::number, |()| 0)
    }

    pub(super) fn append(&mut self, key: u64, fk: u64) -> u32 {
        self.call(key, |book, body, heads, state, at| book.append(body, heads, state, at, fk).map(|_| ()))
    }

    pub(super) fn load(&mut self, key: u64, fks: &[u64]) -> u32 {
        self.call(key, |book, body, heads, state, at| book.load(body, heads, state, at, fks, Fit::Spare).map(|_| ()))
    }

    pub(super) fn load_tight(&mut self, key: u64, fks: &[u64]) -> u32 {
        self.call(key, |book, body, heads, state, at| book.load(body, heads, state, at, fks, Fit::Tight).map(|_| ()))
    }

    pub(super) fn read(&mut self, key: u64) -> u32 {
        self.call(key, |book, body, heads, state, at| book.read(body, heads, state, at, &mut vec![0; 20_000]).map(|_| ()))
    }

    pub(super) fn drop(&mut self, key: u64) -> u32 {
        self.call(key, |book, body, heads, state, at| book.drop(body, heads, state, at).map(|_| ()))
    }
}

/// The numbers from 1 to one.
pub(super) fn row(last: u64) -> Vec<u64> {
    (1..=last).collect()
}

/// A making in so many pages, with one head: its refusal's number or 0.
fn makes(pages: usize, list: &[u8], given: Limits) -> u32 {
    let (mut heads, mut state) = ([7], State::at(9));
    let made = SecondBook::default().fresh(&vec![0; pages * PAGE], &mut heads, &mut state, list, &given);
    let fresh = State { counts: Counts::fresh(given), ..State::at(P) };
    assert_eq!((heads, state), if made.is_ok() { ([0], fresh) } else { ([7], State::at(9)) });
    made.map_or_else(Refused::number, |()| 0)
}

/// Limits with the reserve and the ceiling of some desks; other ceilings are none.
fn given(desks: &[(usize, u64, u64)]) -> Limits {
    let mut out = NO_LIMITS;
    desks.iter().for_each(|&(desk, reserve, ceiling)| (out.reserve[desk], out.ceiling[desk]) = (reserve, ceiling));
    out
}

/// Runs a test by both families.
pub(super) fn both(test: impl Fn(Family)) {
    [List, Core].into_iter().for_each(test);
}

/// O1: every call is lent the list; a read too.
#[test]
fn o1_every_call_judges_the_list() {
    for desks in [&[][..], &[0], &[0, 0, 0], &[16, 0], &[255, 0]] {
        let mut b = Book::new(2, List).desks(desks);
        let calls = [b.read(0), b.append(0, 5), b.load(0, &[5]), b.load_tight(0, &[5]), b.drop(0)];
        assert_eq!(calls, [39; 5], "{desks:?}");
        assert_eq!(makes(2, &desks[..desks.len().min(1)], NO_LIMITS), if desks.first() == Some(&0) { 0 } else { 39 });
    }
    assert_eq!(Book::new(2, List).desks(&[15, 15]).append(0, 5), 0);
}

/// O1a: the core judges counts only where it uses them, at a take behind 36 and at a drop of pages, and a desk above 15 in every change. A
/// run is sought before, by the freed count as it is: 42.
#[test]
fn o1a_the_core_judges_less() {
    let mut b = Book::full(4, 2 * P, Core).freed(5);
    assert_eq!((b.load(1, &[]), b.append(1, 5), b.read(0)), (0, 0, 0));
    assert_eq!((b.append(1, 6), b.load(1, &[1, 2]), b.drop(0)), (1, 3, 1));
    b.heads[1] = 0;
    assert_eq!((b.load(1, &[1, 2]), b.load_tight(1, &[1, 2]), b.load(1, &row(300))), (1, 1, 42));
    assert_eq!((b.clone().freed(0).held(3, 5).load(1, &row(300)), b.clone().freed(0).reserve(3, 5).load(1, &row(300))), (1, 1));
    assert_eq!(b.append(0, 4073), 35);
    b.state.free[8] = 8;
    assert_eq!(b.append(0, 4073), 35);
    b.state.free[8] = P;
    assert_eq!(b.append(0, 4073), 1);
    (b.state.mark, b.heads[1]) = (4 * P, 5);
    assert_eq!((b.load(1, &row(300)), b.append(1, 6), b.drop(1)), (3, 36, 0));
    b.state.free[8] = 0;
    assert_eq!((b.load(1, &row(300)), b.clone().freed(0).held(3, 5).load(1, &row(300))), (42, 36));
    b.body[P as usize] = 3;
    assert_eq!(b.drop(0), 31);
    let mut b = b.desks(&[16, 16]);
    assert_eq!((b.append(0, 5), b.load(0, &[5]), b.load_tight(0, &[5]), b.drop(0)), (39, 39, 39, 39));
    b.state.mark += 8;
    assert_eq!(b.append(0, 5), 1);
    let mut b = Book::full(4, 2 * P, List).freed(5);
    assert_eq!((b.append(1, 5), b.load(1, &[]), b.read(0), b.drop(1)), (1, 1, 1, 1));
}

/// O2: 39 comes before 2.
#[test]
fn o2_desks_before_keys() {
    assert_eq!(Book::new(2, List).desks(&[0]).read(2), 39);
    assert_eq!(Book::new(2, List).read(2), 2);
    let mut b = Book::new(2, Core);
    let by = |desk| At { key: 2, by: By::Desk(desk) };
    let mut refused = |desk| SecondBook::default().append(&mut b.body, &mut b.heads, &mut b.state, by(desk), 5).unwrap_err().number();
    assert_eq!((refused(16), refused(u64::MAX), refused(15)), (39, 39, 2));
}

/// O3: a count above the body's pages comes before a bad desk byte.
#[test]
fn o3_counts_before_desks() {
    let mut b = Book::new(2, List).freed(3).desks(&[16, 16]);
    assert_eq!((b.read(0), b.append(0, 5)), (1, 1));
    assert_eq!(b.freed(2).read(0), 39);
}

/// O4: the list is judged, not the key's byte; the core knows that byte alone.
#[test]
fn o4_other_keys_desks() {
    assert_eq!(Book::new(2, List).desks(&[0, 16]).append(0, 5), 39);
    assert_eq!(Book::new(2, Core).desks(&[0, 16]).append(0, 5), 0);
}

/// D1: the body's pages are all of them, the first included.
#[test]
fn d1_the_bodys_pages() {
    assert_eq!((Book::new(2, List).freed(2).read(0), Book::new(2, List).freed(3).read(0)), (0, 1));
}

/// D2: 1 covers freed pages, held pages and reserves, and neither ceilings nor sums.
#[test]
fn d2_what_1_covers() {
    for desk in [0, 7, 15] {
        let mut calls = [Book::new(2, List).held(desk, 3), Book::new(2, List).reserve(desk, 3), Book::new(2, List).ceiling(desk, 3)];
        assert_eq!(calls.each_mut().map(|b| b.read(0)), [1, 1, 0]);
        assert_eq!(calls.each_mut().map(|b| b.append(0, 5)), [1, 1, 0]);
    }
    let all = (0..16).fold(Book::new(2, List).freed(2), |b, desk| b.held(desk, 2).reserve(desk, 2));
    assert_eq!(all.clone().read(0), 0);
}

/// D3, D4, D21: a reserve above the body's pages is 1; reserves above the pages to be had, or their ceilings, are 39.
#[test]
fn d3_d4_d21_makings() {
    for (limits, wanted) in [
        (given(&[(0, 3, 3)]), 1),
        (given(&[(0, 2, 2)]), 39),
        (given(&[(0, 1, 1)]), 0),
        (given(&[(0, 1, 0)]), 39),
        (given(&[(3, 1, 1), (4, 1, 1)]), 39),
        (given(&[(0, 1 << 63, u64::MAX), (1, 1 << 63, u64::MAX)]), 1),
        (given(&[(15, 3, 0), (0, 1, 0)]), 1),
    ] {
        assert_eq!(makes(2, &[0], limits), wanted, "{limits:?}");
    }
    assert_eq!(makes(2, &[16], given(&[(0, 3, 3)])), 1);
    assert_eq!((makes(2, &[], NO_LIMITS), makes(2, &[0, 0], NO_LIMITS), makes(1, &[], NO_LIMITS)), (39, 39, 1));
    assert_eq!((makes(9, &[0], given(&[(0, 4, 4), (9, 4, 4)])), makes(9, &[0], given(&[(0, 4, 4), (9, 5, 5)]))), (0, 39));
}

/// D5: no call refuses limits or counts as such that the making would.
#[test]
fn d5_stored_limits() {
    both(|family| {
        assert_eq!(Book::new(2, family).reserve(0, 1).ceiling(0, 0).append(0, 5), 0);
        assert_eq!(Book::new(2, family).held(0, 2).ceiling(0, 0).reserve(1, 2).append(0, 5), 0);
    });
}

/// D6: a slab of those freed is judged too. D7: what takes nothing isn't.
#[test]
fn d6_d7_slabs_of_those_freed() {
    both(|family| {
        let mut b = Book::new(2, family).reserve(1, 1);
        b.state.mark = 2 * P;
        b.state.free[0] = P;
        assert_eq!(b.clone().inline().append(0, 2), 41);
        assert_eq!((b.append(0, 1), b.append(0, 2), b.load(1, &[7]), b.read(0), b.drop(1), b.load(1, &[])), (0, 41, 0, 0, 0, 0));
        assert_eq!((b.load(1, &[1, 2]), b.load_tight(1, &[1, 2])), (41, 41));
        assert_eq!(b.reserve(1, 0).append(0, 2), 0);
    });
}

/// D7: a number in place, in a slab or a page, is no take.
#[test]
fn d7_numbers_in_place() {
    both(|family| {
        let mut b = Book::new(2, family);
        assert_eq!((b.load(0, &[1, 2]), b.load(1, &[5])), (0, 0));
        b.state.mark = 2 * P;
        let mut b = b.reserve(1, 2);
        assert_eq!((b.append(0, 3), b.append(1, 6), b.drop(0)), (0, 36, 0));
        assert_eq!(b.append(1, 6), 41);
        let mut b = Book::new(3, family);
        assert_eq!(b.load(0, &row(300)), 0);
        let mut b = b.reserve(1, 3).ceiling(0, 0);
        assert_eq!((b.append(0, 301), b.drop(0)), (0, 0));
    });
}

/// D8: a slab in a page already begun is allowed, one that begins a page counts it.
#[test]
fn d8_slabs_at_the_mark() {
    both(|family| {
        for (mark, wanted) in [(P + 16, 0), (2 * P, 41), (2 * P - 16, 0)] {
            let mut b = Book::new(3, family).inline().reserve(1, 1);
            b.state.mark = mark;
            assert_eq!(b.append(0, 2), wanted, "{mark}");
        }
    });
}

/// D9: slabs are no pages.
#[test]
fn d9_slabs_and_ceilings() {
    both(|family| {
        let mut b = Book::new(2, family).inline().ceiling(0, 0);
        assert_eq!((b.append(0, 2), b.state.counts.held[0]), (0, 0));
        assert_eq!(b.load(1, &[1, 2]), 0);
    });
}

/// D10: a desk above its reserve lends nothing to others.
#[test]
fn d10_lacks() {
    both(|family| {
        let b = Book::full(3, 2 * P, family).held(1, 2).reserve(1, 1);
        assert_eq!(b.clone().reserve(2, 1).append(0, 4073), 41);
        assert_eq!(b.clone().append(0, 4073), 0);
    });
}

/// D11: the taker's own lack falls by what it takes.
#[test]
fn d11_the_takers_lack() {
    both(|family| {
        let mut b = Book::full(3, 2 * P, family).reserve(0, 2);
        assert_eq!((b.append(0, 4073), b.state.counts.held[0], b.state.mark), (0, 2, 3 * P));
        assert_eq!(Book::full(3, 2 * P, family).reserve(0, 2).reserve(1, 1).append(0, 4073), 41);
    });
}

/// D12: of free head and count just one is 0, though the mark has room. D13: of a run this is 42, and a slab doesn't look.
#[test]
fn d12_d13_head_and_count() {
    both(|family| {
        let b = Book::full(4, 3 * P, family);
        assert_eq!(b.clone().freed(1).append(0, 4073), 35);
        assert_eq!(b.clone().free(&[2]).freed(0).append(0, 4073), 35);
        assert_eq!(b.clone().free(&[2]).append(0, 4073), 0);
        assert_eq!((b.clone().freed(1).load(1, &row(300)), b.clone().freed(1).load(1, &[1, 2])), (42, 0));
        assert_eq!(b.clone().free(&[2]).freed(0).load(1, &row(300)), 42);
        let mut full = Book::full(4, 4 * P, family).freed(1);
        assert_eq!((full.append(0, 4073), full.load(1, &[1, 2])), (35, 36));
        let mut moved = b.clone();
        assert_eq!(moved.load(1, &row(256)), 0);
        assert_eq!((moved.clone().freed(1).append(1, 257), moved.append(1, 257)), (35, 36));
    });
}

/// D14: where neither is 0 the page is popped, whatever the count.
#[test]
fn d14_untrue_counts() {
    both(|family| {
        let mut b = Book::full(4, 3 * P, family).free(&[2]).freed(2);
        assert_eq!((b.append(0, 4073), b.state.free[8], b.state.counts.freed), (0, 0, 1));
    });
}

/// D15: a drop of more pages than the desk holds; slabs and inline keys are none. D16: other calls don't ask.
#[test]
fn d15_d16_held_pages() {
    both(|family| {
        let mut b = Book::full(3, 2 * P, family).held(0, 0);
        assert_eq!((b.drop(0), b.read(0), b.append(0, 4073)), (31, 0, 0));
        assert_eq!((b.state.counts.held[0], b.drop(0)), (1, 31));
        assert_eq!((b.clone().held(0, 2).drop(0), b.held(0, 3).drop(0)), (0, 0));
        let mut b = Book::new(3, family).inline();
        assert_eq!((b.load(1, &[1, 2]), b.drop(0), b.drop(1)), (0, 0, 0));
    });
}

/// D17: counts that a call lifts above the body's pages; the next call says 1.
#[test]
fn d17_counts_that_rise() {
    let mut b = Book::full(2, 2 * P, List).freed(2);
    assert_eq!((b.drop(0), b.state.counts.freed, b.read(1)), (0, 3, 1));
    let mut b = Book::full(3, 2 * P, List).held(0, 3);
    assert_eq!((b.append(0, 4073), b.state.counts.held[0], b.read(1)), (0, 4, 1));
    let mut b = Book::full(2, 2 * P, Core).freed(2);
    assert_eq!((b.drop(0), b.state.counts.freed, b.read(1), b.append(1, 5), b.append(1, 6)), (0, 3, 0, 0, 36));
}

/// D18: the desk of a drop is the one that is lent with it.
#[test]
fn d18_the_desk_of_a_drop() {
    both(|family| {
        let b = Book::full(3, 2 * P, family).desks(&[5, 0]);
        assert_eq!(b.clone().drop(0), 31);
        let mut b = b.held(5, 1);
        assert_eq!((b.drop(0), b.state.counts.held[5], b.state.counts.held[0], b.state.counts.freed), (0, 0, 1, 1));
    });
}

/// D19, D20: a run is judged whole, by the mark behind it; the gap's slabs change nothing.
#[test]
fn d19_d20_runs() {
    both(|family| {
        let mut b = Book::new(5, family);
        b.state.mark = P + 16;
        let b = b.ceiling(0, 2);
        assert_eq!((b.clone().load(0, &row(8000)), b.clone().load(0, &row(9000))), (0, 40));
        assert_eq!((b.clone().reserve(1, 1).load(0, &row(8000)), b.clone().reserve(1, 2).load(0, &row(8000))), (0, 41));
        assert_eq!(b.clone().reserve(0, 2).reserve(1, 1).load(0, &row(8000)), 0);
        let mut b = b.clone();
        assert_eq!((b.load(0, &row(8000)), b.state.counts.held[0], b.state.counts.freed, b.state.mark), (0, 2, 0, 4 * P));
    });
}

/// D22: limits are kept in the state, and no call changes them.
#[test]
fn d22_limits_stay() {
    both(|family| {
        let mut b = Book::full(4, 2 * P, family).reserve(0, 2).ceiling(3, 7);
        let limits = b.state.counts.limits;
        assert_eq!((b.append(0, 4073), b.drop(0), b.load(0, &[1, 2])), (0, 0, 0));
        assert_eq!(b.state.counts.limits, limits);
    });
}

/// D23: the larger class of a load reaches into reserves, and there is no smaller one in its place; the tight load stays out.
#[test]
fn d23_spare_and_tight_loads() {
    both(|family| {
        let mut b = Book::new(3, family).reserve(1, 1);
        b.state.mark = 2 * P - 16;
        assert_eq!((b.load(0, &[1, 2, 3, 4]), b.load_tight(0, &[1, 2, 3, 4])), (41, 0));
    });
}

/// 35, 36, 40, 41 come in this order, for an append's page and for a run.
#[test]
fn refusals_of_takes_in_order() {
    both(|family| {
        let b = Book::full(3, 3 * P, family).ceiling(0, 1).reserve(1, 1);
        assert_eq!((b.clone().freed(1).append(0, 4073), b.clone().append(0, 4073)), (35, 36));
        let with_page = b.clone().free(&[2]);
        assert_eq!(with_page.clone().append(0, 4073), 40);
        assert_eq!(with_page.clone().ceiling(0, 2).append(0, 4073), 41);
        assert_eq!(with_page.ceiling(0, 2).reserve(1, 0).append(0, 4073), 0);
        let b = Book::new(3, family).ceiling(0, 1).reserve(1, 1);
        assert_eq!((b.clone().load(0, &row(9000)), b.clone().load(0, &row(8000))), (36, 40));
        assert_eq!((b.clone().ceiling(0, 2).load(0, &row(8000)), b.ceiling(0, 2).reserve(1, 0).load(0, &row(8000))), (41, 0));
    });
}

/// A desk below its reserve gets a page by an append, whatever the others took before.
#[test]
fn reserves_are_kept() {
    let (list, mut heads, mut body, mut state) = ([0, 1], [0; 2], vec![0; 5 * PAGE], State::at(0));
    let mut book = SecondBook::default();
    book.fresh(&body, &mut heads, &mut state, &list, &given(&[(1, 2, 2)])).unwrap();
    let at = |key| At { key, by: By::List(&list) };
    assert_eq!(book.load(&mut body, &mut heads, &mut state, at(1), &row(256), Fit::Tight), Ok(0));
    let mut imports = |body: &mut [u8], heads: &mut [u64], state: &mut State, last| {
        book.load(body, heads, state, at(0), &row(last), Fit::Spare).map_err(Refused::number)
    };
    assert_eq!(imports(&mut body, &mut heads, &mut state, 4073), Err(41));
    assert_eq!(imports(&mut body, &mut heads, &mut state, 4072), Ok(1));
    let moved = book.append(&mut body, &mut heads, &mut state, at(1), 257).unwrap();
    assert_eq!((numbers_theirs(&moved.place), state.counts.held[..3].to_vec()), ([3, 0, 0, 3 * P], vec![1, 1, 0]));
}
