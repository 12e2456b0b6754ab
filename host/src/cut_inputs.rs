//! Where lists to cut come from, and ranges of them to split.
use crate::case::Input;
use crate::inputs::{boundaries, long_bad_lists, rising, ROUND};
use crate::rng::Rng;
use crate::table::Each;

/// What a lent range holds before a call.
const FILL_RANGE: [usize; 2] = [0x5a; 2];

/// Lists to cut, rising or not, whose streams are around one, two and three pages, and how many ends are lent.
pub fn lists_to_cut(rng: &mut Rng, round: u64, each: Each) {
    let mut give = |list: &[u64], room: u64| each(&Input::with_ranges(&[], list, vec![FILL_RANGE; room as usize]));
    if round == 0 {
        (0..3).for_each(|room| give(&[], room));
        let bounds = boundaries();
        for &a in &bounds {
            bounds.iter().for_each(|&b| give(&[a, b], 2));
            (0..3).for_each(|room| give(&[a], room));
        }
        for len in (4060..4100).chain(8150..8180).chain(12_230..12_270).chain([65_534, 65_535, 65_536]) {
            let list: Vec<u64> = (1..=len).collect();
            [0, 1, 2, 3, 4, 20].iter().for_each(|&room| give(&list, room));
        }
        long_bad_lists(rng, &[4072, 4089, 9000, 65_536], &mut |list| [3, 200].iter().for_each(|&room| give(list, room)));
    }
    for _ in 0..ROUND / 16 {
        let (list, pages) = some_pages(rng);
        for room in [pages - 1, pages, pages + 1, pages + 3, list.len() as u64 / 407 + 2] {
            give(&list, room);
        }
    }
}

/// A list that takes about so many pages, up to three: rising, or in no order.
fn some_pages(rng: &mut Rng) -> (Vec<u64>, u64) {
    let bits = rng.pick(&[7, 14, 21, 35, 52]);
    let bytes = (bits as u64).div_ceil(7);
    let pages = 1 + rng.below(3);
    let len = pages * 4080 / bytes + rng.below(40) - 20;
    let mut list = rising(rng, len as usize, &mut |r| (r.next() >> (64 - bits)) | 1 << (bits - 1));
    match rng.below(4) {
        0 => list.iter_mut().for_each(|n| *n = rng.bits(64)),
        1 => list.sort_by_key(|n| n.rotate_left(7)),
        _ => {}
    }
    (list, pages)
}

/// Lists with a range of them to be split: the last of so many in a lent list of some length, the range empty, within the list or leaving it.
pub fn lists_to_split(rng: &mut Rng, round: u64, each: Each) {
    let mut give = |list: &[u64], [room, count, start, end]: [u64; 4]| {
        let mut ranges = vec![FILL_RANGE; room as usize];
        if let Some(last) = (count as usize).checked_sub(1).and_then(|k| ranges.get_mut(k)) {
            *last = [start as usize, end as usize];
        }
        each(&Input::with_ranges(&[count], list, ranges));
    };
    if round == 0 {
        let list: Vec<u64> = (1..=8).map(|n| n * 100).collect();
        for len in [0, 1, 2, 8] {
            for start in [0, 1, 2, 7, 8, 9, u64::MAX] {
                for end in [0, 1, 2, 7, 8, 9, u64::MAX] {
                    (0..3).for_each(|count| (0..4).for_each(|room| give(&list[..len], [room, count, start, end])));
                }
            }
        }
        let list: Vec<u64> = (1..=8300).collect();
        for start in [0, 1, 126, 127, 128, 200] {
            for len in (4069..4075).chain(4086..4090).chain(8141..8147) {
                (1..6).for_each(|room| give(&list, [room, 1 + room / 3, start, start + len]));
            }
        }
    }
    for _ in 0..ROUND / 16 {
        let (list, pages) = some_pages(rng);
        let len = list.len() as u64;
        let inside = rng.below(len);
        let start = rng.pick(&[0, 1, inside]);
        let before_end = start + rng.below(len - start);
        let end = rng.pick(&[len, len, len - 1, before_end, len + 1]);
        let count = rng.below(3);
        for room in [count, count + pages - 1, count + pages, count + pages + 2, len / 407 + 4] {
            give(&list, [room, count, start, end]);
        }
    }
}
