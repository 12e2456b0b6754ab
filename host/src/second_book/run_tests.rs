//! Runs out of freed pages in the second book, by both families of calls: for each point that the request leaves open the smallest input.
//! Offsets are in pages unless they are written with P.
use super::desk_tests::{both, row, Book, Family, P};
use super::runs::{freed_pages, lowest};
use super::*;

/// A book of so many pages with the mark at one, where pages are freed, from the top of their list.
fn freed(pages: usize, mark: u64, free: &[u64], family: Family) -> Book {
    let mut b = Book::new(pages, family).free(free);
    b.state.mark = mark;
    b
}

/// A list for a run of so many pages.
fn of_pages(pages: u64) -> Vec<u64> {
    row(4000 * pages)
}

/// Where the run of key 0 begins, in pages, and the freed pages that are left, from the top.
fn after(b: &Book, pages: u64) -> (u64, Vec<u64>) {
    let last = b.heads[0] & !(3 << 62);
    let left: Vec<u64> = freed_pages(&b.body, &b.state).unwrap().iter().map(|off| off / P).collect();
    (last / P + 1 - pages, left)
}

/// Loads a run onto key 0, which is accepted by both loads; where it begins, and what is left.
fn runs(b: &Book, pages: u64) -> (u64, Vec<u64>) {
    let (mut spare, mut tight) = (b.clone(), b.clone());
    assert_eq!((spare.load(0, &of_pages(pages)), tight.load_tight(0, &of_pages(pages))), (0, 0));
    assert!(spare.body == tight.body && spare.heads == tight.heads && spare.state == tight.state);
    assert_eq!((spare.read(0), spare.state.counts.held[0]), (0, pages));
    after(&spare, pages)
}

/// R1: a run of one page is the lowest freed one, and an append's page the top of the list.
#[test]
fn r1_one_page() {
    both(|family| {
        let b = freed(4, 4 * P, &[3, 1], family);
        assert_eq!(runs(&b, 1), (1, vec![3]));
        let mut full = Book::full(5, 5 * P, family).free(&[4, 2]);
        assert_eq!((full.append(0, 4073), after(&full, 1)), (0, (4, vec![2])));
    });
}

/// R2: the list is judged whenever a run is wanted, also where the mark has room or nothing is freed.
#[test]
fn r2_judged_for_every_run() {
    both(|family| {
        let b = freed(8, 2 * P, &[], family);
        assert_eq!((b.clone().freed(1).load(0, &row(300)), b.clone().load(0, &row(300))), (42, 0));
        assert_eq!((b.clone().freed(1).load(0, &[1, 2]), b.clone().freed(1).load_tight(0, &row(256))), (0, 0));
        let mut strays = freed(8, 3 * P, &[2], family);
        strays.state.free[8] = 5 * P;
        assert_eq!((strays.load(0, &row(300)), strays.load(0, &[1, 2]), strays.load(1, &[])), (42, 0, 0));
    });
}

/// Every ground of 42, and R3: a list that comes back, though it is counted as long as one likes.
#[test]
fn r3_grounds() {
    both(|family| {
        let good = freed(8, 6 * P, &[3, 5, 1], family);
        assert_eq!(good.clone().load(0, &row(300)), 0);
        for link in [8, P - 16, P + 8, 5 * P, 6 * P, 7 * P, 8 * P, 2048, 1 << 60, u64::MAX] {
            let mut b = good.clone();
            b.body[5 * PAGE..5 * PAGE + 8].copy_from_slice(&link.to_le_bytes());
            assert_eq!((b.load(0, &row(300)), b.load_tight(0, &row(300)), b.load(0, &row(9000))), (42, 42, 42), "{link}");
            let mut b = good.clone();
            b.state.free[8] = link;
            assert_eq!(b.load(0, &row(300)), 42, "{link}");
        }
        for back in [1, 3, 5] {
            let mut b = good.clone();
            b.body[PAGE..PAGE + 8].copy_from_slice(&(back * P).to_le_bytes());
            for count in 1..=8 {
                assert_eq!(b.clone().freed(count).load(0, &row(300)), 42, "{back}, {count}");
            }
        }
        for count in [0, 1, 2, 4, 8] {
            assert_eq!(good.clone().freed(count).load(0, &row(300)), 42, "{count}");
        }
    });
}

/// R4: a page that lies across an unaligned mark leaves it.
#[test]
fn r4_across_the_mark() {
    both(|family| {
        assert_eq!(freed(4, 2 * P + 16, &[2], family).load(0, &row(300)), 42);
        assert_eq!(freed(4, 3 * P - 16, &[2], family).load(0, &row(300)), 42);
        assert_eq!(runs(&freed(4, 3 * P, &[2], family), 1), (2, vec![]));
    });
}

/// R5: freed pages that adjoin the mark aren't joined with pages past it.
#[test]
fn r5_at_the_mark() {
    both(|family| {
        assert_eq!(freed(4, 3 * P, &[2], family).load(0, &of_pages(2)), 36);
        let b = freed(5, 3 * P, &[2], family);
        assert_eq!(runs(&b, 2), (3, vec![2]));
    });
}

/// R6: where freed pages serve, the mark is neither rounded nor is a gap carved.
#[test]
fn r6_the_mark_stays() {
    both(|family| {
        let mut b = freed(4, 2 * P + 16, &[1], family);
        assert_eq!((b.load(0, &row(300)), b.state.mark, b.state.free), (0, 2 * P + 16, [0; 9]));
        assert_eq!((b.load(1, &row(300)), b.state.mark), (0, 4 * P));
        assert_ne!(b.state.free[7], 0);
    });
}

/// R7: of a longer stretch its lowest pages, of several the lowest that is long enough.
#[test]
fn r7_the_lowest() {
    both(|family| {
        let b = freed(9, 9 * P, &[6, 4, 3, 5, 1, 8], family);
        assert_eq!(runs(&b, 2), (3, vec![6, 5, 1, 8]));
        assert_eq!(runs(&b, 3), (3, vec![6, 1, 8]));
        assert_eq!(runs(&b, 4), (3, vec![1, 8]));
        assert_eq!(runs(&b, 1), (1, vec![6, 4, 3, 5, 8]));
        assert_eq!(b.clone().load(0, &of_pages(5)), 36);
    });
    assert_eq!((lowest(&[P], 1), lowest(&[P], 2), lowest(&[], 1)), (Some(P), None, None));
}

/// R8: those left keep their order, and of them no byte but links.
#[test]
fn r8_those_left() {
    both(|family| {
        let mut b = freed(7, 7 * P, &[4, 5, 1, 3, 6], family);
        assert_eq!(runs(&b, 2), (3, vec![5, 1, 6]));
        (1..7).for_each(|page| b.body[page * PAGE + 8..(page + 1) * PAGE].fill(0xa5));
        let before = b.clone();
        assert_eq!((b.load(0, &of_pages(2)), after(&b, 2)), (0, (3, vec![5, 1, 6])));
        for page in [1, 5, 6] {
            assert_eq!(b.body[page * PAGE + 8..(page + 1) * PAGE], before.body[page * PAGE + 8..(page + 1) * PAGE]);
        }
        assert_eq!((b.state.counts.freed, b.state.counts.held[0]), (3, 2));
    });
}

/// R10, R11: a freed page that holds another key's slab is used; what takes no run doesn't look at the list.
#[test]
fn r10_r11_what_is_not_judged() {
    both(|family| {
        let mut b = freed(4, 3 * P, &[1], family);
        assert_eq!(b.load(1, &[1, 2]), 0);
        (b.heads[1], b.body[PAGE + 16]) = (word(&ShHeadValue::slab(0, 2, P + 16)), 2);
        assert_eq!((b.load(0, &row(300)), after(&b, 1)), (0, (1, vec![])));
        let mut b = Book::full(6, 6 * P, family).free(&[4, 2]).freed(5);
        assert_eq!((b.append(0, 4073), b.state.counts.freed, b.load(1, &row(300))), (0, 4, 42));
    });
}

/// R12: pages enough, but apart and none past the mark: 36, also for a desk below its reserve.
#[test]
fn r12_pages_apart() {
    both(|family| {
        let b = freed(5, 5 * P, &[1, 3], family).reserve(0, 2);
        assert_eq!((b.clone().load(0, &of_pages(2)), runs(&b, 1)), (36, (1, vec![3])));
    });
}

/// 42, 36, 40, 41 in this order; the core's 1 for counts stands behind 36.
#[test]
fn refusals_of_runs_in_order() {
    both(|family| {
        let b = freed(5, 5 * P, &[2, 3], family).ceiling(0, 1).reserve(1, 1);
        let two = of_pages(2);
        assert_eq!((b.clone().freed(3).load(0, &of_pages(3)), b.clone().load(0, &of_pages(3))), (42, 36));
        assert_eq!((b.clone().freed(3).load(0, &two), b.clone().load(0, &two)), (42, 40));
        assert_eq!(b.clone().ceiling(0, 2).load(0, &two), 41);
        assert_eq!(b.clone().ceiling(0, 2).reserve(1, 0).load(0, &two), 0);
        assert_eq!(b.clone().load(0, &row(300)), 0);
        let high = b.clone().held(5, 6);
        let counts = if family == Family::List { [1, 1, 1] } else { [42, 36, 1] };
        assert_eq!([high.clone().freed(3).load(0, &two), high.clone().load(0, &of_pages(3)), high.clone().load(0, &two)], counts);
    });
}
