//! Where streams and slabs come from: offered lists with rooms of each length around that of their streams, and stored streams that are
//! whole, padded and damaged.
use crate::case::Input;
use crate::inputs::{boundaries, damage, form, list, list_len, long_bad_lists, stream, FILL, FILL_NUMBER, ROUND};
use crate::rng::Rng;
use crate::table::Each;

/// Lengths of long lists that don't rise: around where slabs, pages and counts end.
const LONG: [usize; 7] = [256, 300, 1000, 4072, 4089, 65_535, 65_536];

/// Offered lists, and a destination of each length around that of the stream.
pub fn lists_and_room(rng: &mut Rng, round: u64, each: Each) {
    let mut give = |fks: &[u64], room: usize| each(&Input::new(&[], &vec![FILL; room], fks));
    if round == 0 {
        give(&[], 0);
        let bounds = boundaries();
        for &a in &bounds {
            (0..11).for_each(|room| give(&[a], room));
            for &b in &bounds {
                [0, 1, 2, 10, 20].iter().for_each(|&room| give(&[a, b], room));
            }
        }
        for len in [255, 256, 257, 4072, 4088, 65_534, 65_535, 65_536] {
            let fks: Vec<u64> = (1..=len as u64).collect();
            [len - 1, len, len + 1].iter().for_each(|&room| give(&fks, room));
        }
        long_bad_lists(rng, &LONG, &mut |fks| [0, 2 * fks.len()].iter().for_each(|&room| give(fks, room)));
    }
    if rng.below(16) == 0 {
        let len = 257 + rng.bits(16) as usize;
        long_bad_lists(rng, &[len], &mut |fks| give(fks, 10 * fks.len()));
    }
    for _ in 0..ROUND / 4 {
        let len = list_len(rng);
        let fks = list(rng, len);
        let exact = stream(rng, &fks, false).len();
        for room in [exact.saturating_sub(1), exact, exact + 1, exact + rng.below(40) as usize, rng.below(exact as u64 + 1) as usize] {
            give(&fks, room);
        }
    }
}

/// Stored streams, how many numbers are asked of them, and a lent list of a length around that.
pub fn streams(rng: &mut Rng, round: u64, each: Each) {
    let mut give = |bytes: &[u8], n: usize, room: usize| each(&Input::new(&[n as u64], bytes, &vec![FILL_NUMBER; room]));
    if round == 0 {
        for n in 0..4 {
            for room in 0..4 {
                give(&[], n, room);
                (0..=255).for_each(|a| give(&[a], n, room));
            }
            (0..=0xffffu16).for_each(|ab| give(&ab.to_be_bytes(), n, 2));
        }
        let bounds = boundaries();
        for &a in &bounds {
            for &b in &bounds {
                let bytes = [form(a, 0), form(b, 0)].concat();
                (1..4).for_each(|n| give(&bytes, n, 3));
            }
        }
        for &a in bounds.iter().step_by(5) {
            // Each number padded, by up to the most bytes that can be read and one more, and then another number.
            for padding in 1..12 {
                let bytes = [form(a, padding), form(7, 11 - padding), form(3, 5)].concat();
                (1..4).for_each(|n| give(&bytes, n, 3));
            }
        }
        for len in [255, 256, 257, 4072, 4088, 65_534, 65_535] {
            let bytes = vec![1u8; len];
            [(len, len), (len + 1, len + 1), (len, len - 1), (len - 1, len)].iter().for_each(|&(n, room)| give(&bytes, n, room));
        }
    }
    for _ in 0..ROUND / 4 {
        let len = list_len(rng);
        let fks = list(rng, len);
        let padded = rng.below(3) == 0;
        let mut bytes = stream(rng, &fks, padded);
        if rng.below(2) == 0 {
            damage(rng, &mut bytes);
        }
        let more = rng.below(3) as usize;
        bytes.extend(rng.bytes(more));
        for (n, room) in
            [(fks.len(), fks.len()), (fks.len() + 1, fks.len() + 1), (fks.len(), fks.len() + 3), (fks.len(), fks.len().saturating_sub(1))]
        {
            give(&bytes, n, room);
        }
    }
}

/// Offered lists, and a slab's buffer of each length around that of the payload.
pub fn lists_and_slab_room(rng: &mut Rng, round: u64, each: Each) {
    lists_and_room(rng, round, &mut |input| {
        for more in 0..3 {
            let mut with = input.clone();
            with.bytes.extend(&[FILL; 2][..more]);
            each(&with);
        }
    });
}

/// Slab payloads, whole and damaged, with other bytes after them, and a lent list of a length around the count.
pub fn slabs(rng: &mut Rng, round: u64, each: Each) {
    if round == 0 {
        [&[][..], &[0], &[1], &[0, 0], &[1, 0]].iter().for_each(|bytes| each(&Input::new(&[], bytes, &[])));
        let long: Vec<u8> = [&[0xff, 0xff][..], &[1; 65_535]].concat();
        [65_534, 65_535, 65_536].iter().for_each(|&room| each(&Input::new(&[], &long, &vec![FILL_NUMBER; room])));
    }
    streams(rng, round, &mut |input| {
        let count = input.numbers[0] as u16;
        let bytes = [&count.to_le_bytes()[..], &input.bytes].concat();
        each(&Input::new(&[], &bytes, &input.list));
    });
}
