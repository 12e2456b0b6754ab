//! Starts that are spoiled: two owners of one block, free lists that loop or stray, broken streams, and totals that lie.
use crate::lockstep::damage::{damage, Damaged};
use crate::lockstep::starts::Start;
use crate::rng::Rng;
use crate::second_book::desks::{pages_of, past, DESKS};

/// A way to spoil a start: its name, and what does it; it tells whether it could.
type Spoil = (&'static str, fn(&mut Start, &mut Rng) -> bool);

pub const SPOILS: &[Spoil] = &[
    ("two keys with one block", two_keys),
    ("a slab within another key's block", slab_within),
    ("a block that is held and free", held_and_free),
    ("a freed block around a held one", free_around),
    ("a free list that loops", looping),
    ("two free lists with one block", two_lists),
    ("a free head that strays", stray_head),
    ("a link that strays", stray_link),
    ("a broken stream", broken_stream),
    ("a total that lies", lying_total),
    ("a mark that is too low", low_mark),
    ("freed pages that lie", lying_freed),
    ("a desk's pages that lie", lying_held),
    ("pages of another desk", other_desk),
    ("a ceiling below a desk's pages", low_ceiling),
    ("a reserve above its ceiling", high_reserve),
    ("lacks that aren't covered", uncovered),
    ("damage of a history", damaged),
];

/// Spoils a start in one way, and tells its name.
pub fn spoil(start: &mut Start, rng: &mut Rng) -> &'static str {
    loop {
        let (name, does) = rng.pick(SPOILS);
        if does(start, rng) {
            return name;
        }
    }
}

/// One of some values, if there is one.
fn one_of<T: Copy>(rng: &mut Rng, of: &[T]) -> Option<T> {
    (!of.is_empty()).then(|| rng.pick(of))
}

/// Any key.
fn some_key(start: &Start, rng: &mut Rng) -> usize {
    rng.below(start.heads.len() as u64) as usize
}

/// A freed block: its class, and its place in the list.
fn some_freed(start: &Start, rng: &mut Rng) -> Option<(usize, usize)> {
    let all: Vec<(usize, usize)> = (0..9).flat_map(|class| (0..start.freed[class].len()).map(move |k| (class, k))).collect();
    one_of(rng, &all)
}

/// Has the list of a class go on at an offset: from its head, where there is none or chance wants it, or from its last block.
fn lead(start: &mut Start, rng: &mut Rng, class: usize, off: u64) {
    match start.freed[class].last() {
        Some(&last) if rng.below(3) != 0 => start.body[last as usize..][..8].copy_from_slice(&off.to_le_bytes()),
        _ => start.state.free[class] = off,
    }
}

fn two_keys(start: &mut Start, rng: &mut Rng) -> bool {
    let Some((_, _, from, _)) = one_of(rng, &start.held) else {
        return false;
    };
    let to = some_key(start, rng);
    start.heads[to] = start.heads[from];
    to != from
}

/// Another key gets a slab where nothing is written to the end of a block, so that both stay sound.
fn slab_within(start: &mut Start, rng: &mut Rng) -> bool {
    let class = rng.below(8) as usize;
    let roomy: Vec<(u64, usize)> = start.held.iter().filter(|b| b.3 >= 16).map(|b| (b.1 + (16 << b.0) - b.3 as u64, b.2)).collect();
    let Some((free, owner)) = one_of(rng, &roomy) else {
        return false;
    };
    let (off, key) = (free.next_multiple_of(16), some_key(start, rng));
    if key == owner || off + (16 << class) > start.state.mark {
        return false;
    }
    let last = 1 + rng.below(100) as u8;
    start.body[off as usize..][..4].copy_from_slice(&[2, 0, 5, last]);
    start.heads[key] = 1 << 62 | (class as u64) << 56 | 2 << 40 | off;
    true
}

/// A free list that comes to a block of a key, or to a part of it.
fn held_and_free(start: &mut Start, rng: &mut Rng) -> bool {
    let Some((class, off, _, _)) = one_of(rng, &start.held) else {
        return false;
    };
    let (of, within) = (rng.below(8) as usize, off + 16 * rng.below(1 << class));
    let (of, off) = rng.pick(&[(class, off), (class, off), (of, within)]);
    lead(start, rng, of, off);
    true
}

/// A free list that comes to a block which begins before one of a key and ends in it or behind it.
fn free_around(start: &mut Start, rng: &mut Rng) -> bool {
    let (Some((_, off, _, _)), class) = (one_of(rng, &start.held), 1 + rng.below(8) as usize) else {
        return false;
    };
    let before = off.saturating_sub(16 * rng.below(1 << class));
    let before = if class == 8 { before - before % 4096 } else { before };
    lead(start, rng, class, before);
    true
}

/// The last block of a list leads to one of its own, or to a place within one.
fn looping(start: &mut Start, rng: &mut Rng) -> bool {
    let Some((class, k)) = some_freed(start, rng) else {
        return false;
    };
    let (to, within) = (start.freed[class][k], 16 * rng.below(1 << class));
    let last = *start.freed[class].last().expect("a freed block");
    let to = rng.pick(&[to, to, last, if class == 8 { to } else { to + within }]);
    start.body[last as usize..][..8].copy_from_slice(&to.to_le_bytes());
    true
}

/// Another list comes to a freed block, or to one that shares a part with it.
fn two_lists(start: &mut Start, rng: &mut Rng) -> bool {
    let (Some((class, k)), other) = (some_freed(start, rng), rng.below(9) as usize) else {
        return false;
    };
    let off = start.freed[class][k];
    let off = rng.pick(&[off, off, off + (16 << class) - 16, off.saturating_sub((16 << other) - 16)]);
    lead(start, rng, other, if other == 8 { off - off % 4096 } else { off });
    other != class
}

/// An offset where no block of a class stands below the mark.
fn stray(start: &Start, rng: &mut Rng, class: usize) -> u64 {
    let (mark, size, len) = (start.state.mark, 16 << class, start.body.len() as u64);
    let any = 4096 + 16 * rng.below((len - 4096) / 16);
    let end = mark.saturating_sub(size) + if class == 8 { 4096 - mark % 4096 } else { 16 };
    let unaligned = if class == 8 { any | 16 } else { any + 8 };
    let within = [unaligned, unaligned, unaligned, any + 1, 16, 2048, 4080, end, end];
    let beyond = [mark, len, len - 8, u64::MAX, u64::MAX - 15, 1 << 63, any | 16 << 32];
    if rng.below(3) != 0 {
        rng.pick(&within)
    } else {
        rng.pick(&beyond)
    }
}

fn stray_head(start: &mut Start, rng: &mut Rng) -> bool {
    let class = rng.below(9) as usize;
    start.state.free[class] = stray(start, rng, class);
    true
}

fn stray_link(start: &mut Start, rng: &mut Rng) -> bool {
    let Some((class, k)) = some_freed(start, rng) else {
        return false;
    };
    let (off, to) = (start.freed[class][k], stray(start, rng, class));
    start.body[off as usize..][..8].copy_from_slice(&to.to_le_bytes());
    true
}

/// A byte of a key's block that stands in its count, its header or its stream.
fn broken_stream(start: &mut Start, rng: &mut Rng) -> bool {
    let Some((class, off, _, left)) = one_of(rng, &start.held) else {
        return false;
    };
    let written = (16usize << class) - left;
    let at = off as usize + rng.pick(&[written - 1, rng.0 as usize % written, rng.0 as usize % written.min(26)]);
    start.body[at] = rng.pick(&[0, 0x80, 0xff, start.body[at] ^ 1]);
    true
}

/// A last page's total: one more or less than there are, or any.
fn lying_total(start: &mut Start, rng: &mut Rng) -> bool {
    let key = some_key(start, rng);
    if start.heads[key] >> 62 != 3 {
        return false;
    }
    let (off, n) = ((start.heads[key] & ((1 << 62) - 1)) as usize, start.lists[key].len() as u32);
    let Some(page) = start.body.get_mut(off..off + 4096) else {
        return false;
    };
    let total = rng.pick(&[n.wrapping_sub(1), n + 1, u32::MAX, u32::MAX - 1, n << 16, n | 1 << 31, 1]);
    page[20..24].copy_from_slice(&total.to_le_bytes());
    true
}

/// A mark within a block, or before it.
fn low_mark(start: &mut Start, rng: &mut Rng) -> bool {
    let held: Vec<(usize, u64)> = start.held.iter().map(|b| (b.0, b.1)).collect();
    let freed = some_freed(start, rng).map(|(class, k)| (class, start.freed[class][k]));
    let (Some((class, off)), Some(other)) = (one_of(rng, &held).or(freed), freed.or(one_of(rng, &held))) else {
        return false;
    };
    let (class, off) = rng.pick(&[(class, off), other]);
    start.state.mark = rng.pick(&[off, off + (16 << class) - 16, off + (16 << class)]);
    true
}

/// What histories do to a book.
fn damaged(start: &mut Start, rng: &mut Rng) -> bool {
    let key = some_key(start, rng);
    let desk = start.desks[key].into();
    let Start { body, heads, state, .. } = start;
    damage(&mut Damaged { body, heads, state, key, desk }, rng);
    true
}

/// Freed pages: one more or less than there are, or any number of the body's pages.
fn lying_freed(start: &mut Start, rng: &mut Rng) -> bool {
    let (is, any) = (start.state.counts.freed, rng.below(pages_of(start.body.len()) + 1));
    start.state.counts.freed = rng.pick(&[is + 1, is.saturating_sub(1), any, 0]);
    start.state.counts.freed != is
}

/// A desk's pages: one more or less than its keys have, or any number of the body's.
fn lying_held(start: &mut Start, rng: &mut Rng) -> bool {
    let any = rng.below(pages_of(start.body.len()) + 1);
    let held = &mut start.state.counts.held[rng.below(DESKS as u64) as usize];
    let is = *held;
    *held = rng.pick(&[is + 1, is.saturating_sub(1), any, 0]);
    *held != is
}

/// A key in pages goes to another desk, with nothing counted anew.
fn other_desk(start: &mut Start, rng: &mut Rng) -> bool {
    let key = some_key(start, rng);
    let desk = rng.below(DESKS as u64) as u8;
    let other = desk != start.desks[key] && start.heads[key] >> 62 == 3;
    if other {
        start.desks[key] = desk;
    }
    other
}

fn low_ceiling(start: &mut Start, rng: &mut Rng) -> bool {
    let desk = rng.below(DESKS as u64) as usize;
    let held = start.state.counts.held[desk];
    start.state.counts.limits.ceiling[desk] = held.saturating_sub(1 + rng.below(2));
    held > 0
}

fn high_reserve(start: &mut Start, rng: &mut Rng) -> bool {
    let desk = rng.below(DESKS as u64) as usize;
    let limits = &mut start.state.counts.limits;
    limits.reserve[desk] = limits.reserve[desk].max(1);
    limits.ceiling[desk] = rng.below(limits.reserve[desk]);
    true
}

/// Reserves of one desk or two, one page more than are to be had, within their ceilings.
fn uncovered(start: &mut Start, rng: &mut Rng) -> bool {
    let (desk, len) = (rng.below(DESKS as u64) as usize, start.body.len());
    let had = start.state.counts.freed + past(len, start.state.mark);
    let counts = &mut start.state.counts;
    let reserve = counts.held[desk] + (had + 1).saturating_sub(counts.lacks()).max(1);
    counts.limits.reserve[desk] = reserve.max(counts.limits.reserve[desk]);
    counts.limits.ceiling[desk] = counts.limits.ceiling[desk].max(reserve);
    reserve <= pages_of(len)
}
