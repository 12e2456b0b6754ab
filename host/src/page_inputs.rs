//! Where pages come from whose headers count: each field at its bounds, and buffers that aren't pages.
use crate::case::Input;
use crate::inputs::{boundaries, ROUND};
use crate::rng::Rng;
use crate::table::Each;

/// The bytes of a page.
pub const PAGE: usize = 4096;
/// Versions that pages have and that they don't.
pub const VERSIONS: [u8; 5] = [0, 1, 2, 3, 255];
/// Counts at each bound.
const COUNTS: [u16; 9] = [0, 1, 2, 4071, 4072, 4073, 4088, 4089, 65_535];
/// Links, LAST and not, to the first pages and to the last that a link can name.
const LINKS: [u64; 8] = [0, 1, 2, 3, 4, 5, (1 << 40) - 2, (1 << 40) - 1];
/// Bases of extents.
const BASES: [u64; 9] = [0, 1, 2048, 4095, 4096, 8192, 1 << 63, u64::MAX - 4095, u64::MAX];

/// What a page's header says.
#[derive(Clone, Copy)]
pub struct Header {
    version: u8,
    pub count: u16,
    link: u64,
    base: u64,
    extents: u32,
    creates: u32,
}

/// A page of version 1 or 2 that is LAST, with a count.
pub fn last_page(version: u8, count: usize) -> Header {
    Header { version, count: count as u16, link: 1, base: 4096, extents: 1, creates: count as u32 }
}

/// Where the stream of a page of a version starts.
pub fn stream_off(version: u8) -> usize {
    if version == 2 {
        24
    } else {
        8
    }
}

/// A page of a header and a stream; bytes past the page are left out, and 0 stands behind the stream.
pub fn page_of(h: Header, stream: &[u8]) -> Vec<u8> {
    let mut out = vec![h.version];
    out.extend(h.count.to_le_bytes());
    out.extend(&h.link.to_le_bytes()[..5]);
    if h.version == 2 {
        out.extend(h.base.to_le_bytes());
        out.extend(h.extents.to_le_bytes());
        out.extend(h.creates.to_le_bytes());
    }
    out.extend(stream);
    out.resize(PAGE, 0);
    out
}

/// A header with each field drawn from its bounds, or random.
pub fn header(rng: &mut Rng) -> Header {
    let link = rng.next() >> 24;
    let (base, extents, creates) = (rng.bits(51) * 4096, rng.bits(32) as u32, rng.bits(32) as u32);
    Header {
        version: rng.pick(&VERSIONS),
        count: rng.pick(&[COUNTS[0], COUNTS[4], COUNTS[5], COUNTS[6], COUNTS[7], link as u16]),
        link: rng.pick(&[link, link, 0, 1]),
        base: rng.pick(&[base, base, base + 1, 0]),
        extents: rng.pick(&[extents, extents, 1, 0]),
        creates,
    }
}

/// Buffers that aren't pages, and pages of every header with fields at their bounds.
pub fn short_headers(each: &mut dyn FnMut(&[u8])) {
    for len in [0, 1, 2, 3, 8, 24, PAGE - 1, PAGE + 1] {
        for version in VERSIONS {
            let mut bytes = page_of(last_page(version, 1), &[1]);
            bytes.resize(len, 0);
            each(&bytes);
        }
    }
    let plain = last_page(1, 0);
    for version in 0..=255 {
        each(&page_of(Header { version, ..plain }, &[]));
        each(&page_of(Header { version, count: 1, ..plain }, &[1]));
    }
    for version in VERSIONS {
        for count in COUNTS {
            LINKS.iter().for_each(|&link| each(&page_of(Header { version, count, link, ..plain }, &[1; PAGE])));
        }
        for base in BASES {
            for extents in [0, 1, u32::MAX] {
                [0, 1, u32::MAX].iter().for_each(|&creates| each(&page_of(Header { version, base, extents, creates, ..plain }, &[])));
            }
        }
    }
}

/// A random header, with zeros or random bytes behind it.
fn random_header(rng: &mut Rng) -> Vec<u8> {
    let h = header(rng);
    let more = rng.pick(&[0, 0, 40]);
    let bytes = rng.bytes(more);
    page_of(h, &bytes)
}

/// Pages whose headers count.
pub fn headers(rng: &mut Rng, round: u64, each: Each) {
    if round == 0 {
        short_headers(&mut |bytes| each(&Input::new(&[], bytes, &[])));
    }
    for _ in 0..ROUND {
        let bytes = random_header(rng);
        each(&Input::new(&[], &bytes, &[]));
    }
}

/// Pages whose headers count, each with some numbers.
fn with_numbers(rng: &mut Rng, round: u64, each: Each, short: &[Vec<u64>], draw: &mut dyn FnMut(&mut Rng) -> Vec<u64>) {
    if round == 0 {
        short_headers(&mut |bytes| {
            // A few for each header, all for one of each version.
            let some = if bytes.len() == PAGE && bytes[3] != 1 { 7 } else { 1 };
            short.iter().step_by(some).for_each(|n| each(&Input::new(n, bytes, &[])));
        });
    }
    for _ in 0..ROUND {
        let numbers = draw(rng);
        let bytes = random_header(rng);
        each(&Input::new(&numbers, &bytes, &[]));
    }
}

/// Offsets of pages: aligned and not, and around the last that a link can name.
pub fn page_offsets() -> Vec<u64> {
    let end = 1u64 << 51;
    let mut out =
        vec![0, 1, 2048, 4095, 4096, 4097, 8192, end - 4096, end - 1, end, end + 1, end + 4096, 1 << 63, u64::MAX - 4095, u64::MAX];
    out.extend((12..64).flat_map(|k| [(1u64 << k) - 4096, 1 << k, (1 << k) + 4096]));
    out
}

/// Pages, and a link to write: LAST or not, and an offset.
pub fn links(rng: &mut Rng, round: u64, each: Each) {
    let short: Vec<Vec<u64>> = page_offsets().iter().flat_map(|&off| [vec![0, off], vec![1, off]]).collect();
    with_numbers(rng, round, each, &short, &mut |rng| {
        let off = rng.bits(52) * rng.pick(&[4096, 4096, 4096, 1]);
        vec![rng.below(2), off]
    });
}

/// Pages, and an extent to set: its base and count.
pub fn extents(rng: &mut Rng, round: u64, each: Each) {
    let short: Vec<Vec<u64>> = page_offsets().iter().flat_map(|&base| [0, 1, 2, u32::MAX as u64].map(|n| vec![base, n])).collect();
    with_numbers(rng, round, each, &short, &mut |rng| {
        let base = rng.bits(52) * rng.pick(&[4096, 4096, 4096, 1]);
        vec![base, rng.bits(32)]
    });
}

/// Pages, and a count to set.
pub fn counts(rng: &mut Rng, round: u64, each: Each) {
    let short: Vec<Vec<u64>> =
        COUNTS.iter().map(|&n| vec![n as u64]).chain(boundaries().into_iter().filter(|n| *n >> 32 == 0).map(|n| vec![n])).collect();
    with_numbers(rng, round, each, &short, &mut |rng| vec![rng.bits(32)]);
}
