//! The keys of the second book: whether a key is sound, on what ground not, and what it holds.
use crate::errors::{of_store, Side};
use crate::forms::{padded, padded_in_page, taken};
use crate::second_book::space::{HELD_BY_DESK, PAGE, PAGE_CLASS};
use crate::second_book::LIMIT;
use oracle::error::StoreError;
use oracle::scripthash_layout::{slab_bytes, unpack8, ShHeadValue};
use oracle::scripthash_pages as pages;
use oracle::scripthash_slabs::decode_slab_payload_into;
use oracle::Fk;

/// Why a key isn't sound, in words.
pub type Ground = &'static str;

/// The most numbers of a slab.
const MOST_USED: u16 = 256;

/// Where a key's list stands; of a slab also how many bytes its stream takes, as stored.
#[derive(Clone, Copy, Debug, PartialEq, Eq)]
pub enum Held {
    Empty,
    Inline,
    Slab { class: u8, off: u64, taken: usize },
    Pages { last: u64 },
}

/// What a key holds: its numbers, and its pages from the first to the last. After a look at the end alone, they are those of the last page.
#[derive(Default)]
pub struct Key {
    pub fks: Vec<Fk>,
    pub pages: Vec<u64>,
}

/// The ground that a stream of a slab gives.
fn of_slab(error: StoreError) -> Ground {
    match of_store(error, Side::Stored) {
        17 => "a slab's stream is cut short",
        18 => "a form in a slab overflows",
        20 => "a slab's first number is 0",
        21 => "a difference in a slab is 0",
        22 => "a sum in a slab passes 64 bits",
        23 => "a number in a slab has bit 63",
        number => panic!("a slab gives {number}"),
    }
}

/// The ground that a page's header or stream gives.
fn of_page(error: StoreError) -> Ground {
    match of_store(error, Side::Stored) {
        15 => "a page's count is above its room",
        16 => "a page's version is another",
        17 => "a page's stream is cut short",
        18 => "a form in a page overflows",
        20 => "a page's first number is 0",
        21 => "a difference in a page is 0",
        22 => "a sum in a page passes 64 bits",
        23 => "a number in a page has bit 63",
        number => panic!("a page gives {number}"),
    }
}

/// The ground that a word gives which doesn't unpack.
fn of_word(error: StoreError) -> Ground {
    match of_store(error, Side::Stored) {
        28 => "a word is a slab's with used 0 or 1",
        29 => "a word's mode is 2",
        30 => "a word is that of page 0",
        number => panic!("a word gives {number}"),
    }
}

/// The page of a body at an offset.
fn page_at(body: &[u8], off: u64) -> &[u8; PAGE] {
    pages::sh_page_as_array(&body[off as usize..off as usize + PAGE]).expect("a page of a body")
}

/// The last page's header: version 2 and LAST, with a good extent.
fn last_header(page: &[u8; PAGE]) -> Result<(), Ground> {
    if !pages::sh_page_is_last(page).expect("a link is always read") {
        return Err("the head's page isn't LAST");
    }
    match pages::sh_page_extent(page).map_err(|e| of_store(e, Side::Stored)) {
        Ok(Some(_)) => Ok(()),
        Ok(None) => Err("the last page's version isn't 2"),
        Err(8) => Err("an extent's count is 0"),
        Err(_) => Err("an extent's base is 0 or unaligned"),
    }
}

/// Where the head's page stands: a word names no page 0, so that one that is aligned isn't below 4,096.
fn place_of_last(off: u64, mark: u64) -> Result<(), Ground> {
    match off {
        _ if !off.is_multiple_of(PAGE as u64) => Err("the head's page isn't aligned"),
        _ if off > mark.saturating_sub(PAGE as u64) => Err("the head's page is past the mark"),
        _ => Ok(()),
    }
}

/// Where a link leads; its offsets are always aligned.
fn place_of_link(off: u64, mark: u64) -> Result<(), Ground> {
    match off {
        0 => Err("a link leads to page 0"),
        _ if off > mark.saturating_sub(PAGE as u64) => Err("a link leads past the mark"),
        _ => Ok(()),
    }
}

impl Key {
    /// The last number, of a key that isn't empty.
    pub fn last(&self) -> u64 {
        self.fks.last().expect("a key that isn't empty").0
    }

    /// Reads a whole key, as reads and drops look at it.
    pub fn whole(&mut self, body: &[u8], mark: u64, word: u64) -> Result<Held, Ground> {
        self.held(body, mark, word, Key::chain)
    }

    /// How many numbers are padded of a key that was read whole, by the forms in its slab or in each of its pages.
    pub fn padded(&self, body: &[u8], word: u64) -> u64 {
        match unpack8(word) {
            Ok(ShHeadValue::Slab { off, .. }) => padded(&body[off as usize + 2..], self.fks.len()),
            _ => self.pages.iter().map(|&off| padded_in_page(page_at(body, off))).sum(),
        }
    }

    /// Reads a key as appends look at it: of pages the last one alone.
    pub fn end(&mut self, body: &[u8], mark: u64, word: u64) -> Result<Held, Ground> {
        self.held(body, mark, word, Key::last_page)
    }

    fn held(
        &mut self,
        body: &[u8],
        mark: u64,
        word: u64,
        of_pages: fn(&mut Key, &[u8], u64, u64) -> Result<(), Ground>,
    ) -> Result<Held, Ground> {
        self.fks.clear();
        self.pages.clear();
        match unpack8(word).map_err(of_word)? {
            ShHeadValue::Empty => Ok(Held::Empty),
            ShHeadValue::Inline { entries, .. } => {
                self.fks.push(entries[0]);
                Ok(Held::Inline)
            }
            ShHeadValue::Slab { class, used, off } => self.slab(body, mark, class, used, off),
            ShHeadValue::Extent { last_page } => {
                place_of_last(last_page, mark)?;
                last_header(page_at(body, last_page))?;
                of_pages(self, body, mark, last_page)?;
                Ok(Held::Pages { last: last_page })
            }
        }
    }

    /// Reads a slab.
    fn slab(&mut self, body: &[u8], mark: u64, class: u8, used: u16, off: u64) -> Result<Held, Ground> {
        if class >= PAGE_CLASS {
            return Err("a slab's class is above 7");
        }
        if !off.is_multiple_of(16) {
            return Err("a slab isn't aligned");
        }
        if off < 4096 {
            return Err("a slab begins below 4,096");
        }
        if off + slab_bytes(class) > mark {
            return Err("a slab ends past the mark");
        }
        let slab = &body[off as usize..][..slab_bytes(class) as usize];
        if used > MOST_USED {
            return Err("a slab's used is above 256");
        }
        if slab[..2] != used.to_le_bytes() {
            return Err("a slab's used is another than its word's");
        }
        decode_slab_payload_into(slab, &mut self.fks).map_err(of_slab)?;
        if self.last() >= LIMIT {
            return Err("a number in a slab is 2^62 or more");
        }
        Ok(Held::Slab { class, off, taken: taken(&slab[2..], used as usize) })
    }

    /// Reads one more page, whose numbers must rise above those so far.
    fn page(&mut self, page: &[u8; PAGE], off: u64) -> Result<(), Ground> {
        let before = self.fks.len();
        pages::sh_page_entries_into(page, &mut self.fks).map_err(of_page)?;
        let Some(first) = self.fks.get(before) else {
            return Err("a page is empty");
        };
        if before > 0 && first.0 <= self.fks[before - 1].0 {
            return Err(if self.pages.contains(&off) { "a chain comes back to a page" } else { "numbers don't rise across a link" });
        }
        if self.last() >= LIMIT {
            return Err("a number in a page is 2^62 or more");
        }
        self.pages.push(off);
        Ok(())
    }

    /// Reads the last page alone; its creates may be anything.
    fn last_page(&mut self, body: &[u8], _mark: u64, last: u64) -> Result<(), Ground> {
        self.page(page_at(body, last), last)
    }

    /// Reads a chain from the first page that the last one names.
    fn chain(&mut self, body: &[u8], mark: u64, last: u64) -> Result<(), Ground> {
        let mut off = pages::sh_page_first_off(page_at(body, last)).expect("a page with LAST");
        loop {
            place_of_link(off, mark)?;
            if self.pages.len() as u64 >= mark / PAGE as u64 {
                return Err("a chain has too many pages");
            }
            let page = page_at(body, off);
            self.page(page, off)?;
            if off == last {
                break;
            }
            if pages::sh_page_is_last(page).expect("a link is always read") {
                return Err("a page before the last is LAST");
            }
            off = pages::sh_page_next(page).expect("a link is always read");
        }
        match pages::sh_page_extent_creates(page_at(body, last)) {
            0 => Ok(()),
            n if n as u64 == self.fks.len() as u64 => Ok(()),
            _ => Err("creates is neither 0 nor the length"),
        }
    }
}

/// Every ground that 31 can be met with; the last one isn't the key's. That a chain has too many pages is tested and can't be met: there are fewer aligned offsets from
/// 4,096 up to the mark than that, and a page that comes twice doesn't rise.
pub const GROUNDS: &[Ground] = &[
    "a word is a slab's with used 0 or 1",
    "a word's mode is 2",
    "a word is that of page 0",
    "a slab's class is above 7",
    "a slab isn't aligned",
    "a slab begins below 4,096",
    "a slab ends past the mark",
    "a slab's used is above 256",
    "a slab's used is another than its word's",
    "a slab's stream is cut short",
    "a form in a slab overflows",
    "a slab's first number is 0",
    "a difference in a slab is 0",
    "a sum in a slab passes 64 bits",
    "a number in a slab has bit 63",
    "a number in a slab is 2^62 or more",
    "the head's page isn't aligned",
    "the head's page is past the mark",
    "the head's page isn't LAST",
    "the last page's version isn't 2",
    "an extent's count is 0",
    "an extent's base is 0 or unaligned",
    "a link leads to page 0",
    "a link leads past the mark",
    "a page's count is above its room",
    "a page's version is another",
    "a page is empty",
    "a page's stream is cut short",
    "a form in a page overflows",
    "a page's first number is 0",
    "a difference in a page is 0",
    "a sum in a page passes 64 bits",
    "a number in a page has bit 63",
    "a number in a page is 2^62 or more",
    "numbers don't rise across a link",
    "a chain comes back to a page",
    "a page before the last is LAST",
    "creates is neither 0 nor the length",
    HELD_BY_DESK,
];
