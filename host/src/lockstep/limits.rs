//! Desks of histories: which desk each key is of, reserves and ceilings, and lists and limits that are turned back.
use crate::rng::Rng;
use crate::second_book::desks::{pages_of, past, Counts, Limits, DESKS, NO_LIMITS};
use crate::second_book::space::State;

/// A desk for each key: one for all, any, two, or one after the other.
pub fn desk_list(rng: &mut Rng, keys: usize) -> Vec<u8> {
    let (one, other) = (rng.below(16) as u8, rng.below(16) as u8);
    match rng.below(5) {
        0 => vec![rng.pick(&[0, 15, one]); keys],
        1 => (0..keys).map(|_| rng.below(16) as u8).collect(),
        2 | 3 => (0..keys).map(|_| rng.pick(&[one, one, other])).collect(),
        _ => (0..keys).map(|key| (key % DESKS) as u8).collect(),
    }
}

/// A list that is turned back: too short, too long, or with a byte above 15, at the key's place or another.
pub fn bad_list(rng: &mut Rng, good: &[u8], key: usize) -> Vec<u8> {
    let mut list = good.to_vec();
    let place = rng.pick(&[key, rng.0 as usize]) % good.len().max(1);
    match rng.below(5) {
        0 => list.truncate(rng.pick(&[0, 1, good.len().saturating_sub(1)]).min(good.len().saturating_sub(1))),
        1 => list.extend(vec![rng.pick(&[0, 16]); rng.pick(&[1, 1, 2, 16])]),
        _ if list.is_empty() => list.push(0),
        _ => list[place] = rng.pick(&[16, 16, 17, 128, 255]),
    }
    list
}

/// A desk of the list, or any.
fn some_desk(rng: &mut Rng, list: &[u8]) -> usize {
    let of_list = if list.is_empty() { 0 } else { rng.pick(list) };
    let any = rng.below(16) as u8;
    rng.pick(&[of_list, of_list, of_list, any]).into()
}

/// What a ceiling has over a desk's pages and reserve.
fn above(rng: &mut Rng, least: u64) -> u64 {
    let more = rng.pick(&[0, 0, 1, 2, 7]);
    rng.pick(&[least + more, least + more, u64::MAX])
}

/// Gives desks of a list so many pages of reserve, in some parts, each with a ceiling above it.
fn spread(rng: &mut Rng, list: &[u8], mut left: u64, limits: &mut Limits) {
    while left > 0 {
        let desk = some_desk(rng, list);
        let part = 1 + rng.below(left);
        limits.reserve[desk] += part;
        limits.ceiling[desk] = limits.ceiling[desk].max(above(rng, limits.reserve[desk]));
        left -= part;
    }
}

/// Limits of a making: none; low ceilings; reserves that leave no page or few; a reserve of one desk, while another imports.
pub fn limits(rng: &mut Rng, body: usize, list: &[u8]) -> Limits {
    let had = past(body, 4096);
    let mut out = NO_LIMITS;
    match rng.below(8) {
        0..3 => {}
        3 => out.ceiling = std::array::from_fn(|_| rng.below(had.min(6) + 1)),
        4 => out.reserve[some_desk(rng, list)] = 1 + rng.below(had),
        _ => {
            out.ceiling = std::array::from_fn(|_| rng.pick(&[0, 1, 2, had / 2, u64::MAX, u64::MAX]));
            let left = rng.pick(&[0, 0, 1, 2, had / 2, had - 1]).min(had);
            spread(rng, list, had - left, &mut out);
        }
    }
    out
}

/// Limits that a making is refused for, or nearly: a reserve above the body's pages or its ceiling, or too many pages in all.
pub fn bad_limits(rng: &mut Rng, body: usize, list: &[u8]) -> Limits {
    let (mut out, pages, desk) = (limits(rng, body, list), pages_of(body).max(2), some_desk(rng, list));
    match rng.below(5) {
        0 => out.reserve[desk] = rng.pick(&[pages, pages + 1, 1 << 63, u64::MAX]),
        1 => out.reserve = [rng.pick(&[1 << 63, u64::MAX, 1 << 60, pages]); DESKS],
        2 => (out.reserve[desk], out.ceiling[desk]) = rng.pick(&[(1, 0), (pages - 1, pages - 2), (pages + 1, 0)]),
        3 => {
            out = NO_LIMITS;
            spread(rng, list, pages, &mut out);
        }
        _ => out.reserve[desk] = out.reserve[desk].saturating_add(1),
    }
    out
}

/// Limits that a state with true counts keeps: pages and reserves up to the ceilings, and all lacks covered.
pub fn within(rng: &mut Rng, body: usize, state: &State) -> Limits {
    let Counts { freed, held, .. } = state.counts;
    let (mut left, mut out) = (freed + past(body, state.mark), NO_LIMITS);
    for (desk, held) in held.into_iter().enumerate() {
        if rng.below(2) == 0 {
            let lack = rng.pick(&[0, 0, left, rng.0 % (left + 1)]);
            let reserve = if lack > 0 { held + lack } else { rng.below(held + 1) };
            left -= lack;
            (out.reserve[desk], out.ceiling[desk]) = (reserve, above(rng, held.max(reserve)));
        }
    }
    out
}
