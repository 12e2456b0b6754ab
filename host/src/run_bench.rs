//! How long loads of a run take by how many pages are freed: in bodies of 2^30, 2^36 and 2^41 bytes, whose freed pages are linked in random
//! order. Beside them stands a plain walk of the list, which no search does without.
use crate::bench::{now, seen};
use crate::book_sys as sys;
use crate::lent::{Area, Placing, READ_WRITE};
use crate::lockstep::lists;
use crate::rng::Rng;
use crate::second_book::desks::NO_LIMITS;
use crate::second_book::space::{State, PAGE};
use std::collections::HashSet;

/// The phrase by which these cases are chosen.
pub const NAME: &str = "runs";
/// Bodies: the logarithm of their bytes, the rounds in each, and the pages that are freed.
const BODIES: [(u32, usize, &[usize]); 3] =
    [(30, 9, &[0, 16, 1000, 30_000, 250_000]), (36, 3, &[1000, 30_000, 100_000]), (41, 3, &[1000, 30_000, 100_000])];
/// The pages past the mark, and those that are wanted.
const PAST: u64 = 64;
const WANTED: [u64; 3] = [1, 10, 40];

/// Links freed pages in their order, and tells the first.
fn link(body: &mut [u8], pages: &[u64]) -> u64 {
    let next = pages.iter().skip(1).chain([&0]);
    pages.iter().zip(next).for_each(|(&at, next)| body[at as usize..][..8].copy_from_slice(&next.to_le_bytes()));
    pages.first().copied().unwrap_or(0)
}

/// Walks a list to its end, and tells how many pages it has.
fn walk(body: &[u8], head: u64) -> u64 {
    let (mut at, mut count) = (head as usize, 0);
    while at != 0 {
        count += 1;
        at = u64::from_le_bytes(body[at..at + 8].try_into().expect("a link")) as usize;
    }
    count
}

/// The middle one of some times, in microseconds.
fn middle(mut times: Vec<f64>) -> f64 {
    times.sort_by(f64::total_cmp);
    times[times.len() / 2] * 1e6
}

/// So many pages of a body's, any, in any order.
fn some_pages(rng: &mut Rng, count: usize, mark: u64) -> Vec<u64> {
    let mut taken = HashSet::new();
    let mut pages = Vec::with_capacity(count);
    while pages.len() < count {
        let page = 1 + rng.below(mark / PAGE as u64 - 1);
        if taken.insert(page) {
            pages.push(page * PAGE as u64);
        }
    }
    pages
}

/// Loads a list onto key 0 by the core, and tells the seconds that it took, and where its last page is. What it changed is put back.
fn load(body: &mut [u8], pages: &[u64], state: &State, fks: &[u64]) -> (f64, u64) {
    let (mut mark, mut free, mut counts, mut heads, mut told) = (state.mark, state.free, state.counts.words(), [0], 0);
    let (start, number) = (now(), unsafe {
        let (at, len) = (body.as_mut_ptr(), body.len());
        sys::ouriscado_core_load(
            at,
            len,
            heads.as_mut_ptr(),
            1,
            &mut mark,
            &mut free,
            &mut counts,
            0,
            0,
            fks.as_ptr(),
            fks.len(),
            &mut told,
        )
    });
    let took = now() - start;
    assert_eq!(number, 0);
    if mark == state.mark {
        link(body, pages);
    }
    (took.as_secs_f64(), heads[0] & !(3 << 62))
}

/// Measures a body with so many freed pages, and tells the times, and where the runs were found.
fn measure(body: &mut [u8], mark: u64, rounds: usize, freed: usize) -> (Vec<f64>, Vec<&'static str>) {
    let (mut rng, mut state) = (Rng(11), State::at(mark));
    let pages = some_pages(&mut rng, freed, mark);
    (state.free[8], state.counts.freed, state.counts.limits) = (link(body, &pages), freed as u64, NO_LIMITS);
    let lists: Vec<Vec<u64>> = WANTED.iter().map(|&wanted| lists::of_run(&mut rng, wanted, true)).collect();
    let (mut walks, mut loads, mut found) = (Vec::new(), vec![Vec::new(); WANTED.len()], Vec::new());
    for round in 0..rounds {
        let start = now();
        seen(walk(body, state.free[8]));
        walks.push((now() - start).as_secs_f64());
        for (fks, times) in lists.iter().zip(&mut loads) {
            let (took, last) = load(body, &pages, &state, fks);
            times.push(took);
            if round == 0 {
                found.push(if last < mark { "freed" } else { "mark" });
            }
        }
    }
    ([walks].into_iter().chain(loads).map(middle).collect(), found)
}

/// Measures all.
pub fn bench() {
    println!("A load of a run by the core, and a walk of the list: microseconds, the middle of some rounds.");
    println!("{:>6} {:>12} {:>12} {:>12} {:>12} {:>12}   found", "body", "freed pages", "walk", "1 page", "10 pages", "40 pages");
    for (bits, rounds, all) in BODIES {
        let size = 1 << bits;
        let Some(area) = Area::untouchable(size) else {
            println!("  2^{bits} skipped: the machine has no such range of addresses");
            continue;
        };
        area.allow(0, size, READ_WRITE);
        let body: &mut [u8] = area.slice(size, Placing::Start);
        for &freed in all {
            let (times, found) = measure(body, size as u64 - PAST * PAGE as u64, rounds, freed);
            let line: String = times.iter().map(|time| format!(" {time:>12.1}")).collect();
            println!("  2^{bits} {freed:>12}{line}   {}", found.join(", "));
        }
    }
}
