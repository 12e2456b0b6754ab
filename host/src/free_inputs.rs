//! Where bodies and free heads come from, with blocks to push, pop and carve at each bound.
use crate::case::Input;
use crate::inputs::ROUND;
use crate::rng::Rng;
use crate::table::Each;

/// Lengths of bodies: some pages, odd ones, and those below the least that has a block.
const BODIES: [usize; 18] = [0, 1, 8, 15, 16, 4080, 4095, 4096, 4097, 4104, 4111, 4112, 4113, 4128, 8192, 8192, 9096, 16_384];

/// Offsets on both sides of each bound of a body: its first block, its end, and multiples of 16 and of a page between them.
fn offsets(end: u64) -> Vec<u64> {
    let mut out = vec![0, 1, 8, 16, 4080, 4096, 4097, 4104, 4112, 4128, 6144, 8192, 8200, u64::MAX, u64::MAX - 15, 1 << 40];
    for size in (0..9).map(|c| 16u64 << c).chain([8]) {
        out.extend([end.wrapping_sub(size), end.wrapping_sub(size).wrapping_add(1), end.wrapping_sub(size + 16)]);
    }
    out.extend([end, end + 16]);
    out
}

/// Nine free heads: none, good ones where the body has any, and now and then one of any kind.
fn free_heads(rng: &mut Rng, end: u64) -> Vec<u64> {
    let any = offsets(end);
    let head = |rng: &mut Rng, c: u64| match rng.below(4) {
        0 => 0,
        1 => rng.pick(&any),
        _ => 4096 + rng.below(end.saturating_sub(4096) / 16 + 1) * if c == 8 { 4096 } else { 16 },
    };
    (0..9).map(|c| head(rng, c)).collect()
}

/// The bytes of a body: anything from an offset on, zeros elsewhere, and now and then anything everywhere.
fn body(rng: &mut Rng) -> Vec<u8> {
    let len = rng.pick(&BODIES);
    let mut out = vec![0; len];
    let from = rng.pick(&[4096, 4096, 4096, 0]).min(len);
    let text = rng.pick(&[16, 64, len]).min(len - from);
    out[from..from + text].copy_from_slice(&rng.bytes(text));
    out
}

/// Calls on free lists: every class with offsets at each bound, then random ones. What the second number of a call is, the caller tells.
fn free_calls(rng: &mut Rng, round: u64, each: Each, numbers: &mut dyn FnMut(&mut Rng, u64) -> Vec<[u64; 2]>) {
    for _ in 0..if round == 0 { 100 } else { ROUND / 32 } {
        let bytes = body(rng);
        let end = bytes.len() as u64;
        let heads = free_heads(rng, end);
        numbers(rng, end).iter().for_each(|n| each(&Input::new(n, &bytes, &heads)));
    }
}

/// Blocks pushed: each class, 9 and above too, with each offset, and good blocks.
pub fn pushes(rng: &mut Rng, round: u64, each: Each) {
    free_calls(rng, round, each, &mut |rng, end| {
        let at = offsets(end);
        let all = (0..11).chain([24, 25, 255]).flat_map(|c| at.iter().map(move |o| [c, *o]));
        let mut out: Vec<[u64; 2]> = all.filter(|_| round == 0 || rng.below(16) == 0).collect();
        for class in (0..9).filter(|c| 4096 + (16 << c) <= end) {
            let unit = if class == 8 { 4096 } else { 16 };
            let last = (end - (16 << class)) / unit - 4096 / unit;
            (0..4).for_each(|_| out.push([class, 4096 + unit * rng.below(last + 1)]));
        }
        out
    });
}

/// Blocks popped: each class with marks at each bound.
pub fn pops(rng: &mut Rng, round: u64, each: Each) {
    pushes(rng, round, each);
}

/// Gaps carved: between any two offsets, and good gaps.
pub fn gaps(rng: &mut Rng, round: u64, each: Each) {
    free_calls(rng, round, each, &mut |rng, end| {
        let at: Vec<u64> = offsets(end).into_iter().filter(|o| *o < 1 << 20).collect();
        let all = at.iter().flat_map(|a| at.iter().map(move |b| [*a, *b]));
        let mut out: Vec<[u64; 2]> = all.filter(|_| round == 0 || rng.below(16) == 0).collect();
        if end > 4096 {
            for _ in 0..8 {
                let from = 4096 + 16 * rng.below((end - 4096) / 16 + 1);
                out.push([from, from + rng.below(end.saturating_sub(from) + 1)]);
            }
        }
        out
    });
}
