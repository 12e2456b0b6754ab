//! Streams, slabs and pages of many numbers, of which none, some or all are padded, for the functions that count them. They are apart from
//! the other inputs: the fixed list of answers, which has those of the first rounds, tells no counts.
use crate::case::Input;
use crate::inputs::{form, FILL_NUMBER};
use crate::page_inputs::{last_page, page_of, stream_off, PAGE};
use crate::rng::Rng;
use crate::table::Each;

/// How many numbers streams have: around where eight forms, a byte's count, a slab and a page end.
const COUNTS: [usize; 17] = [1, 2, 3, 7, 8, 9, 15, 16, 17, 64, 255, 256, 257, 400, 1000, 2036, 2044];
/// And those that only a stream alone can have.
const LONG: [usize; 3] = [4072, 4088, 65_535];

/// Which numbers of a stream are padded, by their place and how many there are.
type Which = fn(usize, usize) -> bool;
const WHICH: [Which; 7] = [|_, _| true, |_, _| false, |k, _| k == 0, |k, _| k > 0, |k, n| k + 1 == n, |k, n| k + 1 < n, |k, _| k % 2 == 1];

/// A stream of so many numbers that rise: differences of up to so many bits, and some of the forms longer, by one byte or by up to so many.
fn stream(rng: &mut Rng, count: usize, which: Which, bits: u32, most: u64) -> Vec<u8> {
    let mut out = Vec::new();
    for k in 0..count {
        let value = 1 + rng.bits(bits);
        let longest = 10 - form(value, 0).len();
        let padding = if which(k, count) { longest.min(1 + rng.below(most) as usize) } else { 0 };
        out.extend(form(value, padding));
    }
    out
}

/// Gives streams of each count, and how many numbers they have.
fn streams(rng: &mut Rng, counts: &[usize], give: &mut dyn FnMut(&[u8], usize)) {
    for &count in counts {
        for which in WHICH {
            let (bits, most) = (rng.pick(&[0, 6, 6, 14, 40]), rng.pick(&[1, 1, 2, 9]));
            give(&stream(rng, count, which, bits, most), count);
        }
    }
}

/// Gives an input with lent lists that are just long enough, longer, and one short.
fn with_rooms(numbers: &[u64], bytes: &[u8], count: usize, each: Each) {
    for room in [count, count + 3, count - 1] {
        each(&Input::new(numbers, bytes, &vec![FILL_NUMBER; room]));
    }
}

/// Gives the inputs of a function that counts padded numbers, in round 0 of every count and then of any; others have none.
pub fn inputs(name: &str, rng: &mut Rng, round: u64, each: Each) {
    let counts = if round == 0 { COUNTS.to_vec() } else { vec![rng.pick(&COUNTS)] };
    match name {
        "decode_fk_delta_stream_into" => {
            let counts = if round == 0 { [&counts[..], &LONG].concat() } else { counts };
            streams(rng, &counts, &mut |bytes, n| with_rooms(&[n as u64], bytes, n, each));
        }
        "decode_slab_payload_into" => {
            streams(rng, &counts, &mut |bytes, n| with_rooms(&[], &[&(n as u16).to_le_bytes()[..], bytes].concat(), n, each));
        }
        "sh_page_entries_into" | "sh_page_decode_slice_into" => streams(rng, &counts, &mut |bytes, n| {
            let fits = |version: &u8| bytes.len() <= PAGE - stream_off(*version);
            [1, 2].into_iter().filter(fits).for_each(|version| with_rooms(&[], &page_of(last_page(version, n), bytes), n, each));
        }),
        _ => {}
    }
}
