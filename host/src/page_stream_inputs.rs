//! Where pages come from whose streams count: whole, full to the byte and one byte short, padded and damaged; and lists to write to pages.
use crate::case::Input;
use crate::inputs::{boundaries, damage, form, list, long_bad_lists, number, rising, stream, FILL_NUMBER, ROUND};
use crate::page_inputs::{header, last_page, page_of, page_offsets, short_headers, stream_off, PAGE, VERSIONS};
use crate::rng::Rng;
use crate::table::Each;
use oracle::scripthash_pages::{sh_page_pack_extent_last_fks, sh_page_pack_fks};

/// A rising list whose stream has a length in bytes, or some bytes less where no form has that length.
fn list_of_bytes(rng: &mut Rng, bytes: usize, most: u32) -> Vec<u64> {
    let mut left = bytes;
    let mut last = 0u64;
    let mut out = Vec::new();
    while left > 0 {
        let len = (1 + rng.below(most as u64) as usize).min(left) as u32;
        let low = if len == 1 { 1 } else { 1u64 << (7 * (len - 1)) };
        let next = last.wrapping_add(low + rng.below(low.min(60)));
        if next <= last || next >> 63 != 0 {
            break;
        }
        out.push(next);
        last = next;
        left -= len as usize;
    }
    out
}

/// A page that they packed, of version 1 or 2.
fn packed(rng: &mut Rng, fks: &[u64]) -> Vec<u8> {
    let mut page = [0u8; PAGE];
    let index = 1 + rng.below((1 << 39) - 1);
    let next = rng.pick(&[0, 4096, 4096 * index]);
    let answer = match rng.below(2) {
        0 => sh_page_pack_fks(&mut page, fks, next),
        _ => sh_page_pack_extent_last_fks(&mut page, fks, 4096 * (1 + rng.below(1000)), 1 + rng.below(9) as u32, next),
    };
    if answer.is_err() {
        return page_of(last_page(1, fks.len()), &stream(rng, fks, false));
    }
    page.to_vec()
}

/// A random page with a stream: whole, full to the byte or one short of it, padded, or with a count that isn't the stream's.
fn random_page(rng: &mut Rng) -> Vec<u8> {
    let version = rng.pick(&[1, 1, 2, 2, 0, 3]);
    let room = PAGE - stream_off(version);
    match rng.below(6) {
        0 => {
            let (less, most) = (rng.pick(&[0, 0, 1, 2, 10]), rng.pick(&[1, 2, 3, 9]));
            let fks = list_of_bytes(rng, room - less, most);
            page_of(last_page(version, fks.len()), &stream(rng, &fks, false))
        }
        1 => {
            let len = rng.below(600) as usize;
            let fks = list(rng, len);
            let count = fks.len() + rng.pick(&[0, 0, 0, 1, 2]);
            page_of(last_page(version, count), &stream(rng, &fks, true))
        }
        2 => {
            let len = rng.below(12) as usize;
            let fks = list(rng, len);
            let mut h = header(rng);
            h.count = rng.pick(&[fks.len() as u16, fks.len() as u16, h.count]);
            page_of(h, &stream(rng, &fks, false))
        }
        _ => {
            let (len, bits) = (rng.pick(&[0, 1, 2, 9, 100, 500]), rng.pick(&[3, 7, 14, 40]));
            let fks = rising(rng, len, &mut |r| r.bits(bits));
            packed(rng, &fks)
        }
    }
}

/// Faults in a page: bytes of the header or the stream changed, or now and then an end cut off.
fn damage_page(rng: &mut Rng, page: &mut Vec<u8>) {
    match rng.below(8) {
        0 => damage(rng, page),
        k => {
            let reach = rng.pick(&[3, 40, 40, PAGE as u64]);
            for _ in 0..1 + k / 4 {
                let at = rng.below(reach) as usize;
                let flipped = page[at] ^ 1 << rng.below(8);
                page[at] = rng.pick(&[0, 1, 0x7f, 0x80, 0xff, flipped, flipped]);
            }
        }
    }
}

/// Pages with streams: every short stream, each length of a first and a second number, pages full of one form, and streams that end badly.
fn short_pages(each: &mut dyn FnMut(&[u8])) {
    short_headers(each);
    let bounds = boundaries();
    for version in VERSIONS {
        for count in 0..4 {
            (0..=255).for_each(|a| each(&page_of(last_page(version, count), &[a])));
            (0..=255).for_each(|b| each(&page_of(last_page(version, count), &[1, b, 1])));
        }
    }
    for version in [1, 2] {
        for &a in &bounds {
            for padding in 0..11 {
                each(&page_of(last_page(version, 1), &form(a, padding)));
            }
            for &b in bounds.iter().step_by(3) {
                each(&page_of(last_page(version, 2), &[form(a, 0), form(b, 0)].concat()));
            }
        }
        let room = PAGE - stream_off(version);
        for len in 1..=11 {
            // Forms of a length to the page's end, one form more counted or not, and the last one cut short or overflowing.
            let one = [&vec![0x80; len - 1][..], &[1]].concat();
            let bytes: Vec<u8> = one.iter().copied().cycle().take(room).collect();
            (0..3).for_each(|more| each(&page_of(last_page(version, room / len + more), &bytes)));
        }
        for last in [0x01, 0x7f, 0x80, 0xff, 0] {
            let mut bytes = vec![1; room];
            bytes[room - 1] = last;
            [room - 1, room].iter().for_each(|&n| each(&page_of(last_page(version, n), &bytes)));
            bytes[room - 12..room - 1].fill(0x80);
            [room - 12, room - 11].iter().for_each(|&n| each(&page_of(last_page(version, n), &bytes)));
        }
    }
}

/// Pages whose streams count.
pub fn pages(rng: &mut Rng, round: u64, each: Each) {
    let mut give = |bytes: &[u8]| each(&Input::new(&[], bytes, &[]));
    if round == 0 {
        short_pages(&mut give);
    }
    for _ in 0..ROUND / 2 {
        let mut page = random_page(rng);
        give(&page);
        damage_page(rng, &mut page);
        give(&page);
    }
}

/// The count that a page's header has, 0 of a buffer that is too short for one.
fn count_of(page: &[u8]) -> usize {
    if page.len() < 3 {
        0
    } else {
        u16::from_le_bytes([page[1], page[2]]) as usize
    }
}

/// Pages, and a lent list of a length around the count.
pub fn pages_and_room(rng: &mut Rng, round: u64, each: Each) {
    pages(rng, round, &mut |input| {
        let n = count_of(&input.bytes).min(PAGE);
        let rooms = [n, 0, n.saturating_sub(1), n + 1];
        rooms.iter().take(if n > 500 { 3 } else { 4 }).for_each(|&room| each(&Input::new(&[], &input.bytes, &vec![FILL_NUMBER; room])));
    });
}

/// The last number of a page's stream, as far as it can be read.
fn last_of(page: &[u8]) -> u64 {
    let Some(mut rest) = page.get(stream_off(page.first().copied().unwrap_or(0))..) else {
        return 0;
    };
    let mut last = 0u64;
    for _ in 0..count_of(page) {
        let Ok((d, len)) = oracle::read_uleb128(rest) else {
            return last;
        };
        last = last.wrapping_add(d);
        rest = &rest[len..];
    }
    last
}

/// Pages, and a number to append: around the last one, and at each length of a difference.
pub fn pages_and_number(rng: &mut Rng, round: u64, each: Each) {
    let mut give = |bytes: &[u8], fk: u64| each(&Input::new(&[fk], bytes, &[]));
    if round == 0 {
        short_pages(&mut |bytes| {
            let last = last_of(bytes);
            [last.wrapping_add(1), last.wrapping_add(128)].iter().for_each(|&fk| give(bytes, fk));
        });
        full_pages(&mut give);
    }
    for _ in 0..ROUND / 4 {
        let mut page = random_page(rng);
        if rng.below(3) == 0 {
            damage_page(rng, &mut page);
        }
        let last = last_of(&page);
        let add = rng.bits(62);
        for fk in [last.wrapping_add(add), rng.pick(&[last, last.wrapping_sub(1), 0, 1 << 63, (1 << 63) - 1, u64::MAX]), number(rng)] {
            give(&page, fk);
        }
    }
}

/// Pages with room for 0 to 11 bytes more, and numbers whose differences have each length.
fn full_pages(give: &mut dyn FnMut(&[u8], u64)) {
    for version in [1, 2] {
        let room = PAGE - stream_off(version);
        for left in 0..12 {
            let n = room - left;
            let page = page_of(last_page(version, n), &vec![1; n]);
            for len in 1..10 {
                let (low, high) = (if len == 1 { 1 } else { 1u64 << (7 * (len - 1)) }, (1u64 << (7 * len)) - 1);
                [low, high].iter().for_each(|d| give(&page, n as u64 + d));
            }
            [0, n as u64 - 1, n as u64, (1 << 63) - 1, 1 << 63, u64::MAX].iter().for_each(|&fk| give(&page, fk));
        }
    }
    for version in VERSIONS {
        let page = page_of(last_page(version, 0), &[]);
        boundaries().iter().for_each(|&fk| give(&page, fk));
    }
}

/// Pages, and a list to write: short ones at each bound, and those whose streams are about a page's length.
pub fn pages_and_list(rng: &mut Rng, round: u64, each: Each) {
    let mut give = |bytes: &[u8], fks: &[u64]| each(&Input::new(&[], bytes, fks));
    if round == 0 {
        short_headers(&mut |bytes| [&[][..], &[1], &[5, 300, 301], &[0], &[3, 3]].iter().for_each(|fks| give(bytes, fks)));
        for version in [1, 2] {
            let page = page_of(last_page(version, 3), &[0xa5; PAGE]);
            short_lists(&mut |fks| give(&page, fks));
            long_bad_lists(rng, &[300, 2000, 4072, 4089, 65_535], &mut |fks| give(&page, fks));
        }
    }
    for _ in 0..ROUND / 4 {
        let page = rng_page(rng);
        let room = PAGE - stream_off(page[0]);
        let (len, most) = (rng.below(40) as usize, rng.pick(&[1, 2, 3, 9]));
        let bytes = room + rng.below(5) as usize - 3;
        let mut long = list_of_bytes(rng, bytes, most);
        let short = list(rng, len);
        give(&page, &short);
        give(&page, &long);
        if !long.is_empty() {
            let at = rng.below(long.len() as u64) as usize;
            let any = number(rng);
            long[at] = rng.pick(&[0, long[at] | 1 << 63, long[at.saturating_sub(1)], any]);
            give(&page, &long);
        }
    }
}

/// The offset of a page: most are such that a link can name them, or 0.
fn page_offset(rng: &mut Rng) -> u64 {
    match rng.below(16) {
        0 => number(rng),
        1 => 4096 * rng.bits(41),
        k => 4096 * rng.pick(&[0, 1, k, (1 << 39) - 1]),
    }
}

/// Pages and lists as above, each with numbers that are drawn; and each of some numbers with lists that are good and bad.
fn lists_with(rng: &mut Rng, round: u64, each: Each, short: &[Vec<u64>], draw: fn(&mut Rng) -> Vec<u64>) {
    if round == 0 {
        let long: Vec<u64> = (1..=65_536).collect();
        let lists = [&[][..], &[7, 9], &[9, 9], &[0], &long[..4073]];
        short.iter().for_each(|n| lists.iter().for_each(|fks| each(&Input::new(n, &[0xa5; PAGE], fks))));
        short.iter().step_by(5).for_each(|n| each(&Input::new(n, &[0xa5; PAGE], &long)));
    }
    let mut drawn = Rng(rng.next());
    pages_and_list(rng, round, &mut |input| each(&Input::new(&draw(&mut drawn), &input.bytes, &input.list)));
}

/// Pages, lists, and the offset of a next page.
pub fn lists_and_next(rng: &mut Rng, round: u64, each: Each) {
    let short: Vec<Vec<u64>> = page_offsets().iter().map(|&next| vec![next]).collect();
    lists_with(rng, round, each, &short, |rng| vec![page_offset(rng)]);
}

/// Pages, lists, the offset of a next page, and an extent's base and count.
pub fn lists_and_extent(rng: &mut Rng, round: u64, each: Each) {
    let mut short = Vec::new();
    for base in page_offsets() {
        [0, 1, u32::MAX as u64].iter().for_each(|&n| [0, 1, 4096, 1 << 51].iter().for_each(|&next| short.push(vec![next, base, n])));
    }
    lists_with(rng, round, each, &short, |rng| {
        let (next, base, n) = (page_offset(rng), page_offset(rng), rng.bits(32));
        vec![next, rng.pick(&[base, base, 4096]), n.max(rng.below(20).min(1))]
    });
}

/// A page of anything behind a random header.
fn rng_page(rng: &mut Rng) -> Vec<u8> {
    let h = header(rng);
    let text = rng.pick(&[0, 64, PAGE]);
    let bytes = rng.bytes(text);
    page_of(h, &bytes)
}

/// Lists of one and two numbers at each bound, and long ones of one-byte differences around each count.
fn short_lists(give: &mut dyn FnMut(&[u64])) {
    let bounds = boundaries();
    give(&[]);
    for &a in &bounds {
        give(&[a]);
        bounds.iter().for_each(|&b| give(&[a, b]));
    }
    for len in [511u64, 512, 4071, 4072, 4073, 4087, 4088, 4089, 65_534, 65_535, 65_536] {
        let fks: Vec<u64> = (1..=len).collect();
        give(&fks);
        [0, len / 2, len - 1].iter().for_each(|&at| {
            let mut bad = fks.clone();
            bad[at as usize] = 0;
            give(&bad);
            bad[at as usize] = 1 << 63;
            give(&bad);
        });
    }
}
