//! Books that were written elsewhere: good starts that no call of ours would write, built from docs/FORMAT.md byte by byte.
use crate::inputs::form;
use crate::lockstep::limits::{desk_list, within};
use crate::rng::Rng;
use crate::second_book::space::State;
use crate::second_book::LIMIT;
use std::collections::BTreeSet;

/// What is foreign about a start: no book that began fresh has it.
pub type Foreign = &'static str;

const PADDED_SLAB: Foreign = "a padded slab";
const LARGE_SLAB: Foreign = "a slab of a larger class than a move would take";
const PADDED_PAGE: Foreign = "a padded page";
const UNCOUNTED: Foreign = "a key that was never counted";
const SCATTERED: Foreign = "a chain of scattered pages";
const MIXED: Foreign = "a chain with pages of both versions before the last";
const OTHER_EXTENT: Foreign = "an extent that isn't the chain's";
const OTHER_FIELDS: Foreign = "an earlier page with an extent or a total";
const PERMUTED: Foreign = "a free list that neither rises nor falls";
const GAP: Foreign = "a gap between blocks";
const MARK_BEHIND: Foreign = "a mark behind the last block";
const LARGEST: Foreign = "a list that ends with the largest number";

/// All that must be met.
pub const FOREIGN: &[Foreign] =
    &[PADDED_SLAB, LARGE_SLAB, PADDED_PAGE, UNCOUNTED, SCATTERED, MIXED, OTHER_EXTENT, OTHER_FIELDS, PERMUTED, GAP, MARK_BEHIND, LARGEST];

/// The bytes of a page, and its class.
const PAGE: usize = 4096;
const PAGE_CLASS: usize = 8;

/// A start, with the lists that were written into it and how many numbers of each are padded, its blocks by class and offset, and what is
/// foreign about it.
#[derive(Clone)]
pub struct Start {
    pub body: Vec<u8>,
    pub heads: Vec<u64>,
    pub state: State,
    pub desks: Vec<u8>,
    pub lists: Vec<Vec<u64>>,
    pub padded: Vec<u64>,
    /// Blocks that keys hold: class, offset, key, and how many bytes at its end nothing is written to.
    pub held: Vec<(usize, u64, usize, usize)>,
    /// The blocks of each free list, from the top.
    pub freed: [Vec<u64>; 9],
    pub met: BTreeSet<Foreign>,
}

/// A stream: its bytes, its numbers, and how many of them are padded.
#[derive(Default)]
struct Stream {
    bytes: Vec<u8>,
    fks: Vec<u64>,
    padded: u64,
}

impl Stream {
    /// Adds a number above the one before in a form that is padded by so many bytes, if it fits.
    fn push(&mut self, fk: u64, padding: usize, room: usize) -> bool {
        let value = fk - self.fks.last().copied().unwrap_or(0);
        let padding = padding.min(10 - form(value, 0).len());
        let bytes = form(value, padding);
        if self.bytes.len() + bytes.len() > room {
            return false;
        }
        self.padded += u64::from(padding > 0);
        self.bytes.extend(bytes);
        self.fks.push(fk);
        true
    }
}

/// How the streams of a list go: the bits of its differences, the least and the most bytes by which a form is padded, and whether it ends
/// with the largest number.
struct Style {
    bits: u32,
    padding: (u64, u64),
    largest: bool,
}

impl Style {
    fn draw(rng: &mut Rng) -> Style {
        let padding = [(0, 0), (0, 0), (0, 1), (0, 3), (1, 9)];
        Style { bits: rng.pick(&[0, 3, 6, 7, 14, 28, 40]), padding: rng.pick(&padding), largest: rng.below(16) == 0 }
    }

    /// A stream of numbers above one, of at most so many bytes and numbers; the last of its list or not.
    fn stream(&self, rng: &mut Rng, before: u64, room: usize, most: usize, last: bool) -> Stream {
        let (mut out, mut fk) = (Stream::default(), before);
        let (least, most_padding) = self.padding;
        let left = if last && self.largest { room.saturating_sub(9) } else { room };
        while out.fks.len() < most {
            let next = fk + 1 + rng.bits(self.bits);
            let padding = least + rng.below(most_padding - least + 1);
            if next >= LIMIT - 1 || !(out.push(next, padding as usize, left) || out.push(next, least as usize, left)) {
                break;
            }
            fk = next;
        }
        if last && self.largest && out.fks.len() < most {
            out.push(LIMIT - 1, 0, room);
        }
        out
    }
}

/// Puts some values into any order.
fn shuffle<T>(rng: &mut Rng, of: &mut [T]) {
    for k in (1..of.len()).rev() {
        of.swap(k, rng.below(k as u64 + 1) as usize);
    }
}

/// How many bytes of some a stream gets: all, some less, few, or any number, but ten at least.
fn room_of(rng: &mut Rng, all: usize) -> usize {
    let any = rng.below(all as u64 + 1) as usize;
    rng.pick(&[all, all, all.saturating_sub(1), all.saturating_sub(9), 40, any, any]).clamp(10.min(all), all)
}

/// The bytes of a class.
fn size_of(class: usize) -> usize {
    16 << class
}

/// A word of a slab, and of pages.
fn slab_word(class: usize, used: usize, off: u64) -> u64 {
    1 << 62 | (class as u64) << 56 | (used as u64) << 40 | off
}

fn page_word(last: u64) -> u64 {
    3 << 62 | last
}

impl Start {
    /// Builds a good start.
    pub fn build(rng: &mut Rng) -> Start {
        let len = rng.pick(&[8192, 12_288, 16_384, 16_384, 32_768, 32_768, 65_536, 131_072]);
        let keys = rng.pick(&[1, 2, 3, 6, 12, 30]);
        let body = match rng.below(3) {
            0 => rng.bytes(len),
            _ => vec![rng.pick(&[0, 0xff]); len],
        };
        let (lists, padded, held, freed) = (vec![Vec::new(); keys], vec![0; keys], Vec::new(), Default::default());
        let desks = desk_list(rng, keys);
        let mut out = Start { body, heads: vec![0; keys], state: State::at(0), desks, lists, padded, held, freed, met: BTreeSet::new() };
        let (mut slabs, mut pages) = out.lay(rng);
        let mut order: Vec<usize> = (0..keys).collect();
        shuffle(rng, &mut order);
        shuffle(rng, &mut slabs);
        if rng.below(4) != 0 {
            shuffle(rng, &mut pages);
        }
        for key in order {
            match rng.below(10) {
                0 => {}
                1 => out.inline(rng, key),
                2..6 if !pages.is_empty() => {
                    let most = rng.pick(&[1, 2, 3, 5, 12]).min(pages.len());
                    let chain: Vec<u64> = pages.drain(..1 + rng.below(most as u64) as usize).collect();
                    out.chain(rng, key, &chain);
                }
                _ => {
                    if let Some((class, off)) = slabs.pop() {
                        out.slab(rng, key, class, off);
                    }
                }
            }
        }
        slabs.extend(pages.iter().map(|&off| (PAGE_CLASS, off)));
        out.free(rng, slabs);
        out.count(rng);
        out
    }

    /// Lays out blocks from 4,096 on, with gaps or without, and puts the mark behind them; tells the slabs, and the pages.
    fn lay(&mut self, rng: &mut Rng) -> (Vec<(usize, u64)>, Vec<u64>) {
        let (mut slabs, mut pages, mut at) = (Vec::new(), Vec::new(), PAGE as u64);
        let (gaps, paged, end) = (rng.pick(&[0, 4, 2]), rng.pick(&[0, 5, 30, 60]), self.body.len() as u64);
        loop {
            let class = if rng.below(100) < paged { PAGE_CLASS } else { rng.below(8) as usize };
            let gap = if gaps > 0 && rng.below(gaps) == 0 { 16 * rng.pick(&[1, 2, 7, 300]) } else { 0 };
            let unit = if class == PAGE_CLASS { PAGE as u64 } else { 16 };
            let off = (at + gap).next_multiple_of(unit);
            if off + size_of(class) as u64 > end {
                break;
            }
            if off > at {
                self.met.insert(GAP);
            }
            if class == PAGE_CLASS {
                pages.push(off);
            } else {
                slabs.push((class, off));
            }
            at = off + size_of(class) as u64;
            if rng.below(200) == 0 {
                break;
            }
        }
        let any = at + 16 * rng.below((end - at) / 16 + 1);
        self.state.mark = rng.pick(&[at, any, end]);
        if self.state.mark > at {
            self.met.insert(MARK_BEHIND);
        }
        (slabs, pages)
    }

    /// A key with one number.
    fn inline(&mut self, rng: &mut Rng, key: usize) {
        let fk = rng.pick(&[1, 1 + rng.0 % 1000, LIMIT - 1]);
        self.heads[key] = fk;
        self.lists[key] = vec![fk];
    }

    /// A key in a slab.
    fn slab(&mut self, rng: &mut Rng, key: usize, class: usize, off: u64) {
        let (style, room, most) = (Style::draw(rng), size_of(class) - 2, rng.pick(&[2, 3, 40, 256, 256]));
        let bytes = room_of(rng, room);
        let mut stream = style.stream(rng, 0, bytes, most, true);
        if stream.fks.len() < 2 {
            stream = Stream::default();
            let first = 1 + rng.below(100);
            assert!(stream.push(first, 0, room) && stream.push(first + 1 + rng.below(100), room.min(6) - 2, room));
        }
        let slab = &mut self.body[off as usize..][..size_of(class)];
        let used = stream.fks.len();
        slab[..2].copy_from_slice(&(used as u16).to_le_bytes());
        slab[2..2 + stream.bytes.len()].copy_from_slice(&stream.bytes);
        self.heads[key] = slab_word(class, used, off);
        self.held.push((class, off, key, room - stream.bytes.len()));
        self.note(key, &stream, PADDED_SLAB);
        // A move goes to the class of one number more, or to that of its bytes.
        if class > 0 && used < 4 << (class - 1) && 2 + stream.bytes.len() <= size_of(class - 1) {
            self.met.insert(LARGE_SLAB);
        }
        self.lists[key] = stream.fks;
    }

    /// Notes what is foreign about a stream of a key.
    fn note(&mut self, key: usize, stream: &Stream, padded: Foreign) {
        self.padded[key] += stream.padded;
        if stream.padded > 0 {
            self.met.insert(padded);
        }
        if stream.fks.last() == Some(&(LIMIT - 1)) {
            self.met.insert(LARGEST);
        }
    }

    /// A key in a chain of pages, which may be of version 1 or 2 before the last.
    fn chain(&mut self, rng: &mut Rng, key: usize, chain: &[u64]) {
        let style = Style::draw(rng);
        let versions: Vec<u8> = chain.iter().map(|_| 1 + rng.below(2) as u8).collect();
        let last = chain.len() - 1;
        let mut fks: Vec<u64> = Vec::new();
        for (k, &off) in chain.iter().enumerate() {
            let version = if k == last { 2 } else { versions[k] };
            let room = PAGE - if version == 2 { 24 } else { 8 };
            let bytes = room_of(rng, room);
            let stream = style.stream(rng, fks.last().copied().unwrap_or(0), bytes.max(20), 4088, k == last);
            let link = if k == last { chain[0] / 4096 * 2 + 1 } else { chain[k + 1] / 4096 * 2 };
            let start = off as usize;
            let page = &mut self.body[start..start + PAGE];
            page[0] = version;
            page[1..3].copy_from_slice(&(stream.fks.len() as u16).to_le_bytes());
            page[3..8].copy_from_slice(&link.to_le_bytes()[..5]);
            page[PAGE - room..][..stream.bytes.len()].copy_from_slice(&stream.bytes);
            self.held.push((PAGE_CLASS, off, key, room - stream.bytes.len()));
            self.note(key, &stream, PADDED_PAGE);
            fks.extend(stream.fks);
            if version == 2 {
                self.fields(rng, chain, k, fks.len() as u32);
            }
        }
        if chain.windows(2).any(|w| w[1] != w[0] + PAGE as u64) {
            self.met.insert(SCATTERED);
        }
        if versions[..last].contains(&1) && versions[..last].contains(&2) {
            self.met.insert(MIXED);
        }
        self.heads[key] = page_word(chain[last]);
        self.lists[key] = fks;
    }

    /// Extent and total of a page of version 2: in the last page an extent of any base and count, and the total or 0; before it anything.
    fn fields(&mut self, rng: &mut Rng, chain: &[u64], k: usize, total: u32) {
        let (last, any) = (k + 1 == chain.len(), rng.next());
        let (mut base, mut count) = rng.pick(&[(chain[0], chain.len() as u32), (chain[k], 1)]);
        let mut creates = if last { total } else { 0 };
        if rng.below(2) == 0 {
            base = rng.pick(&[4096, any << 12 | 4096, 1 << 63, u64::MAX - 4095, chain[0]]);
            count = rng.pick(&[1, 2, u32::MAX, any as u32 | 1]);
            self.met.insert(OTHER_EXTENT);
        }
        if last && rng.below(3) == 0 {
            creates = 0;
            self.met.insert(UNCOUNTED);
        }
        if !last && rng.below(2) == 0 {
            (base, count, creates) = (rng.pick(&[0, any, 1]), rng.pick(&[0, 1]), rng.pick(&[u32::MAX, any as u32, 1]));
            self.met.insert(OTHER_FIELDS);
        }
        let page = &mut self.body[chain[k] as usize..][..24];
        page[8..16].copy_from_slice(&base.to_le_bytes());
        page[16..20].copy_from_slice(&count.to_le_bytes());
        page[20..24].copy_from_slice(&creates.to_le_bytes());
    }

    /// Puts blocks onto the free lists of their classes, in any order; some are nobody's.
    fn free(&mut self, rng: &mut Rng, blocks: Vec<(usize, u64)>) {
        let kept = rng.pick(&[0, 1, 2, 4]);
        for (class, off) in blocks {
            if rng.below(4) < kept {
                self.freed[class].push(off);
            } else {
                self.met.insert(GAP);
            }
        }
        for class in 0..9 {
            shuffle(rng, &mut self.freed[class]);
            let list = &self.freed[class];
            if !list.is_sorted() && !list.is_sorted_by(|a, b| a > b) {
                self.met.insert(PERMUTED);
            }
            self.state.free[class] = list.first().copied().unwrap_or(0);
            for k in 0..list.len() {
                let next = list.get(k + 1).copied().unwrap_or(0);
                self.body[list[k] as usize..][..8].copy_from_slice(&next.to_le_bytes());
            }
        }
    }

    /// Counts freed pages and those of each desk, and gives the desks limits that they keep.
    fn count(&mut self, rng: &mut Rng) {
        self.state.counts.freed = self.freed[PAGE_CLASS].len() as u64;
        for (_, _, key, _) in self.held.iter().filter(|block| block.0 == PAGE_CLASS) {
            self.state.counts.held[usize::from(self.desks[*key])] += 1;
        }
        self.state.counts.limits = within(rng, self.body.len(), &self.state);
    }
}

#[cfg(test)]
mod tests {
    use super::*;
    use crate::second_book::desks::{At, By};
    use crate::second_book::SecondBook;

    /// What is built is a good start by the second book, which reads the lists that were written, and counts as many padded numbers;
    /// together they meet all that is foreign.
    #[test]
    fn starts_are_good() {
        let (mut book, mut met) = (SecondBook::default(), BTreeSet::new());
        for number in 0..400 {
            let start = Start::build(&mut Rng(number << 8));
            let verdict = book.check(&start.body, &start.heads, &start.state, &start.desks, &mut vec![1; start.body.len() / 16]);
            assert_eq!(verdict.map(|v| v.fault), Ok(None), "start {number}");
            for (key, list) in start.lists.iter().enumerate() {
                let mut out = vec![0; list.len()];
                let at = At { key: key as u64, by: By::List(&start.desks) };
                let listed = book.read(&start.body, &start.heads, &start.state, at, &mut out).unwrap();
                let padded = book.padded(&start.body, &start.heads, key as u64);
                assert_eq!((listed.length as usize, &out, padded), (list.len(), list, start.padded[key]), "start {number}, key {key}");
            }
            met.extend(start.met);
        }
        assert_eq!(met, FOREIGN.iter().copied().collect());
    }
}
