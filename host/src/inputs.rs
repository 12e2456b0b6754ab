//! Where inputs come from. Round 0 of each source gives the short inputs and the boundaries; each other round gives random ones of every
//! length around the boundaries, and damaged copies of good ones.
use crate::case::Input;
use crate::rng::Rng;
use crate::table::Each;

/// Random inputs in a round.
pub const ROUND: usize = 256;
/// What a buffer holds before a call, so that bytes that a call leaves are seen.
pub const FILL: u8 = 0xa5;
/// What a lent list holds before a call.
pub const FILL_NUMBER: u64 = 0xa5a5_a5a5_a5a5_a5a5;

/// Numbers on both sides of each power of two, and so of each length and bound of the formats.
pub fn boundaries() -> Vec<u64> {
    let mut out = vec![0, u64::MAX];
    for k in 0..64 {
        out.extend([(1u64 << k) - 1, 1 << k, (1 << k) + 1]);
    }
    out.sort();
    out.dedup();
    out
}

/// A random number: of any length in bits, or near a boundary.
pub fn number(rng: &mut Rng) -> u64 {
    match rng.below(4) {
        0 => (1u64 << rng.below(64)).wrapping_add(rng.below(5)).wrapping_sub(2),
        _ => rng.bits(64),
    }
}

/// The shortest form of a number, with some bytes of padding.
pub fn form(n: u64, padding: usize) -> Vec<u8> {
    let mut out = Vec::new();
    let mut rest = n;
    while rest >= 0x80 {
        out.push(rest as u8 | 0x80);
        rest >>= 7;
    }
    out.push(rest as u8 | if padding > 0 { 0x80 } else { 0 });
    for k in 0..padding {
        out.push(if k + 1 < padding { 0x80 } else { 0 });
    }
    out
}

/// Bytes with one or two faults: a changed bit or byte, a byte more or less, or an end cut off.
pub fn damage(rng: &mut Rng, bytes: &mut Vec<u8>) {
    for _ in 0..1 + rng.below(2) {
        if bytes.is_empty() {
            return;
        }
        let at = rng.below(bytes.len() as u64) as usize;
        match rng.below(6) {
            0 => bytes[at] ^= 1 << rng.below(8),
            1 => bytes[at] = rng.pick(&[0, 1, 0x7f, 0x80, 0xff]),
            2 => bytes.insert(at, rng.next() as u8),
            3 => drop(bytes.remove(at)),
            4 => bytes.truncate(at),
            _ => bytes[at] |= 0x80,
        }
    }
}

/// One number: boundaries, small ones, and random ones.
pub fn one_number(rng: &mut Rng, round: u64, each: Each) {
    if round == 0 {
        (0..70_000).chain(boundaries()).for_each(|n| each(&Input::new(&[n], &[], &[])));
    }
    for _ in 0..ROUND {
        let n = number(rng);
        each(&Input::new(&[n], &[], &[]));
    }
}

/// Counts and lengths: every one to 70,000, and boundaries of 32 bits.
pub fn counts(rng: &mut Rng, round: u64, each: Each) {
    if round == 0 {
        (0..70_000).chain(boundaries()).for_each(|n| each(&Input::new(&[n], &[], &[])));
    }
    for _ in 0..ROUND {
        let n = rng.bits(13);
        each(&Input::new(&[n], &[], &[]));
    }
}

/// Every class.
pub fn classes(_: &mut Rng, round: u64, each: Each) {
    if round == 0 {
        (0..256).for_each(|c| each(&Input::new(&[c], &[], &[])));
    }
}

/// Bytes to read a number from: every string up to two bytes, forms of boundaries, cut, padded, followed by others, and random ones.
pub fn forms(rng: &mut Rng, round: u64, each: Each) {
    let mut give = |bytes: &[u8]| each(&Input::new(&[], bytes, &[]));
    if round == 0 {
        give(&[]);
        (0..=255).for_each(|a| give(&[a]));
        (0..=0xffffu16).for_each(|ab| give(&ab.to_be_bytes()));
        for n in boundaries() {
            for padding in 0..12 {
                let f = form(n, padding);
                (0..=f.len()).for_each(|k| give(&f[..k]));
                give(&[&f[..], &[0x80, 1]].concat());
            }
        }
        for len in 0..16 {
            for last in 0..=255 {
                let mut bytes = vec![0xff; len];
                bytes.push(last);
                give(&bytes);
                bytes[..len].fill(0x80);
                give(&bytes);
            }
        }
    }
    for _ in 0..ROUND {
        let mut bytes = match rng.below(3) {
            0 => (0..rng.below(14)).map(|_| rng.next() as u8 | 0x80).collect(),
            _ => form(number(rng), rng.pick(&[0, 0, 1, 2, 5, 7, 9])),
        };
        let more = rng.below(4) as usize;
        bytes.extend(rng.bytes(more));
        if rng.below(2) == 0 {
            damage(rng, &mut bytes);
        }
        give(&bytes);
    }
}

/// A number to write, and a buffer of each length to 12.
pub fn number_and_room(rng: &mut Rng, round: u64, each: Each) {
    if round == 0 {
        for n in (0..20_000).chain(boundaries()) {
            (0..13).for_each(|len| each(&Input::new(&[n], &[FILL; 12][..len.min(12)], &[])));
        }
    }
    for _ in 0..ROUND {
        let len = rng.below(13) as usize;
        let n = number(rng);
        each(&Input::new(&[n], &rng.bytes(len), &[]));
    }
}

/// Head values as four numbers (kind, class, used, place): every kind with its fields at each bound.
pub fn head_values(rng: &mut Rng, round: u64, each: Each) {
    let mut give = |n: [u64; 4]| each(&Input::new(&n, &[], &[]));
    if round == 0 {
        give([0, 0, 0, 0]);
        for place in boundaries() {
            (0..256).for_each(|used| give([1, 0, used, place]));
            give([3, 0, 0, place]);
            for class in 0..256 {
                [0, 1, 2, 3, 255, 256, 257, 0xfffe, 0xffff].iter().for_each(|&used| give([2, class, used, place]));
            }
        }
    }
    for _ in 0..ROUND {
        let (class, used, place) = (rng.bits(8), rng.bits(16), number(rng));
        give(match rng.below(3) {
            0 => [1, 0, rng.pick(&[1, 1, 1, 0, used & 255]), place],
            1 => [2, class, used, place],
            _ => [3, 0, 0, place],
        });
    }
}

/// Head values, and eight bytes to pack them into.
pub fn head_values_and_room(rng: &mut Rng, round: u64, each: Each) {
    head_values(rng, round, &mut |input| each(&Input::new(&input.numbers, &[FILL; 8], &[])));
}

/// Stored words: each mode with fields at each bound.
pub fn words(rng: &mut Rng, round: u64, each: Each) {
    let mut give = |w: u64| each(&Input::new(&[w], &[], &[]));
    if round == 0 {
        for mode in 0..4u64 {
            boundaries().iter().for_each(|n| give(mode << 62 | n >> 2));
            for class in 0..64u64 {
                for used in (0..300).chain([0x7fff, 0x8000, 0xfffe, 0xffff]) {
                    [0, 1, 4096, (1 << 40) - 1].iter().for_each(|off| give(mode << 62 | class << 56 | used << 40 | off));
                }
            }
        }
        boundaries().into_iter().for_each(&mut give);
    }
    for _ in 0..ROUND {
        give(rng.next());
    }
}

/// Stored words, as eight bytes.
pub fn words_in_bytes(rng: &mut Rng, round: u64, each: Each) {
    words(rng, round, &mut |input| each(&Input::new(&[], &input.numbers[0].to_le_bytes(), &[])));
}

/// A rising list of a length whose differences are drawn as told.
pub fn rising(rng: &mut Rng, len: usize, difference: &mut dyn FnMut(&mut Rng) -> u64) -> Vec<u64> {
    let mut last = 0u64;
    let mut out = Vec::with_capacity(len);
    for _ in 0..len {
        let next = last.wrapping_add(difference(rng).max(1));
        if next <= last || next >> 63 != 0 {
            break;
        }
        out.push(next);
        last = next;
    }
    out
}

/// A random list: mostly rising, with differences of one form's length or of mixed ones, and now and then a fault.
pub fn list(rng: &mut Rng, len: usize) -> Vec<u64> {
    let bits = rng.pick(&[3, 7, 8, 14, 20, 35, 62]);
    let mut out = rising(rng, len, &mut |r| r.bits(bits));
    if !out.is_empty() && rng.below(3) == 0 {
        let at = rng.below(out.len() as u64) as usize;
        out[at] = match rng.below(5) {
            0 => 0,
            1 => out[at] | 1 << 63,
            2 => out[at.saturating_sub(1)],
            3 => out[at.saturating_sub(1)].wrapping_sub(1),
            _ => number(rng),
        };
    }
    out
}

/// Lengths of lists: most short, some around the counts where formats change.
pub fn list_len(rng: &mut Rng) -> usize {
    let near = rng.pick(&[4u64, 8, 16, 32, 64, 128, 256, 257, 509, 2036, 2048]);
    match rng.below(8) {
        0 => (near + rng.below(4) - 2) as usize,
        1 => rng.below(600) as usize,
        _ => rng.below(12) as usize,
    }
}

/// The bytes of the stream of a list, some of its forms padded, by up to two bytes or to any length up to eleven; differences wrap.
pub fn stream(rng: &mut Rng, fks: &[u64], padded: bool) -> Vec<u8> {
    let long = rng.below(2) == 0;
    let mut last = 0u64;
    let mut out = Vec::new();
    for &fk in fks {
        let shortest = form(fk.wrapping_sub(last), 0);
        let padding = match padded && rng.below(4) == 0 {
            true if long => rng.below(12 - shortest.len() as u64) as usize,
            true => rng.below(3) as usize,
            false => 0,
        };
        out.extend(if padding == 0 { shortest } else { form(fk.wrapping_sub(last), padding) });
        last = fk;
    }
    out
}

/// Long lists that don't rise: one of them a fault late, in the middle or early, of each kind.
pub fn long_bad_lists(rng: &mut Rng, lengths: &[usize], each: &mut dyn FnMut(&[u64])) {
    for &len in lengths {
        let bits = rng.pick(&[0, 6, 13, 30]);
        let good = rising(rng, len, &mut |r| r.bits(bits));
        for at in [1, len / 2, len - 1] {
            for bad in [good[at - 1], good[at - 1] - 1, 0, 1 << 63, u64::MAX, good[at] | 1 << 63] {
                let mut list = good.clone();
                list[at] = bad;
                each(&list);
            }
        }
        each(&vec![good[len - 1]; len]);
        each(&good.iter().rev().copied().collect::<Vec<u64>>());
    }
}
