//! What becomes of a book when somebody else writes it: bits flipped, words, mark, free heads and the list of freed pages set. What is
//! written into slabs and pages stands in `spoil`.
use crate::lockstep::spoil::*;
use crate::rng::Rng;
use crate::second_book::desks::DESKS;
use crate::second_book::page_mut;
use crate::second_book::runs::freed_pages;
use crate::second_book::space::{State, PAGE};
use oracle::scripthash_layout::{pack8, slab_bytes, unpack8, ShHeadValue};
use oracle::scripthash_pages as pages;

/// A book that is damaged, and the key that is aimed at.
pub struct Damaged<'a> {
    pub body: &'a mut [u8],
    pub heads: &'a mut [u64],
    pub state: &'a mut State,
    pub key: usize,
    /// The key's desk.
    pub desk: usize,
}

/// A kind of damage: its name, and what does it; it tells whether it could.
type Damage = (&'static str, fn(&mut Damaged, &mut Rng) -> bool);

const DAMAGES: &[Damage] = &[
    ("a bit of the body", flip_body),
    ("a bit of the key's block", flip_block),
    ("a bit of the word", flip_word),
    ("the word", set_word),
    ("the slab's word, a field", set_slab_word),
    ("the page's word", set_page_word),
    ("the mark", set_mark),
    ("the mark, at the key's block", set_mark_near),
    ("a free head", set_free_head),
    ("free heads that name the key's own block", free_own_block),
    ("a freed block's link", set_free_link),
    ("a padded slab", pad_slab),
    ("a slab's bad stream", spoil_slab),
    ("a padded page", pad_page),
    ("a page's bad stream", spoil_page),
    ("a page's first number, by the page before", meet_across_link),
    ("a page's version", set_version),
    ("a page's count", set_count),
    ("a page's link", set_link),
    ("a chain that comes back", make_loop),
    ("a chain that is turned round", turn_chain),
    ("a page's extent", set_extent),
    ("creates", set_creates),
    ("freed pages", set_freed),
    ("a desk's pages", set_held),
    ("a reserve", set_reserve),
    ("a ceiling", set_ceiling),
    ("a page's free head against freed pages", part_head_and_count),
    (OF_FREED_PAGES[0], loop_list),
    (OF_FREED_PAGES[1], stray_from_list),
    (OF_FREED_PAGES[2], end_list),
    (OF_FREED_PAGES[3], count_list),
    (OF_FREED_PAGES[4], mark_in_list),
    (OF_FREED_PAGES[5], part_list),
    (OF_FREED_PAGES[6], shuffle_list),
    (OF_FREED_PAGES[6], shuffle_list),
];

/// The damages of the list of freed pages. The last one leaves a good list.
pub const OF_FREED_PAGES: [&str; 7] = [
    "a list of freed pages that comes back",
    "a list of freed pages that strays",
    "a list of freed pages that ends early",
    "a list of freed pages that is counted wrong",
    "a mark within the list of freed pages",
    "freed pages without a head, or a head without them",
    "freed pages in another order",
];

/// Damages a book in one way, and tells its name.
pub fn damage(book: &mut Damaged, rng: &mut Rng) -> &'static str {
    loop {
        let (name, does) = rng.pick(DAMAGES);
        if does(book, rng) {
            return name;
        }
    }
}

impl Damaged<'_> {
    pub fn mark(&self) -> u64 {
        self.state.mark.clamp(4096, self.body.len() as u64)
    }

    /// The key's place, as far as its word has one within the body.
    pub fn place(&self) -> Option<ShHeadValue> {
        let place = unpack8(self.heads[self.key]).ok()?;
        let end = match place {
            ShHeadValue::Slab { class, off, .. } if class < 8 => off + slab_bytes(class),
            ShHeadValue::Extent { last_page } if last_page.is_multiple_of(4096) => last_page + PAGE as u64,
            _ => return None,
        };
        (end <= self.body.len() as u64).then_some(place)
    }

    /// The key's slab: class, offset.
    pub fn slab(&self) -> Option<(u8, u64)> {
        match self.place()? {
            ShHeadValue::Slab { class, off, .. } => Some((class, off)),
            _ => None,
        }
    }

    /// One of the key's pages: the last, or one that links lead to from the first.
    pub fn page(&self, rng: &mut Rng) -> Option<u64> {
        let ShHeadValue::Extent { last_page } = self.place()? else {
            return None;
        };
        let page = |off: u64| pages::sh_page_as_array(self.body.get(off as usize..off as usize + PAGE)?).ok();
        let mut off = pages::sh_page_read_packed(page(last_page)?).ok()?.1;
        let steps = rng.pick(&[0, 0, 1, 2, 40]);
        for _ in 0..steps {
            off = pages::sh_page_read_packed(page(off)?).ok()?.1;
        }
        let off = rng.pick(&[off, last_page]);
        page(off).map(|_| off)
    }

    /// One of the key's pages, to be written.
    pub fn page_mut(&mut self, rng: &mut Rng) -> Option<(u64, &mut [u8; PAGE])> {
        let off = self.page(rng)?;
        Some((off, page_mut(self.body, off)))
    }

    /// Makes the key that of a slab.
    pub fn put_word(&mut self, class: u8, used: usize, off: u64) {
        self.heads[self.key] = pack8(&ShHeadValue::slab(class, used as u16, off)).expect("a slab within the body");
    }
}

/// Flips a bit of a number.
fn flipped(rng: &mut Rng, n: u64) -> u64 {
    n ^ 1 << rng.below(64)
}

fn flip_body(book: &mut Damaged, rng: &mut Rng) -> bool {
    let at = rng.below(book.mark()) as usize;
    book.body[at] ^= 1 << rng.below(8);
    true
}

fn flip_block(book: &mut Damaged, rng: &mut Rng) -> bool {
    let (from, len) = match book.place() {
        Some(ShHeadValue::Slab { class, off, .. }) => (off, slab_bytes(class)),
        Some(ShHeadValue::Extent { last_page }) => (last_page, rng.pick(&[24, 40, PAGE as u64])),
        _ => return false,
    };
    let reach = rng.pick(&[3, 16, PAGE as u64]).min(len);
    let at = from + rng.below(reach);
    book.body[at as usize] ^= 1 << rng.below(8);
    true
}

fn flip_word(book: &mut Damaged, rng: &mut Rng) -> bool {
    book.heads[book.key] = flipped(rng, book.heads[book.key]);
    true
}

/// Another key's word, a word of any kind, or one of those that don't unpack.
fn set_word(book: &mut Damaged, rng: &mut Rng) -> bool {
    let other = book.heads[rng.below(book.heads.len() as u64) as usize];
    let any = rng.next();
    book.heads[book.key] = rng.pick(&[other, other, any, 3 << 62, 1 << 62, 1 << 62 | 1 << 40 | 4096, 2 << 62 | any >> 2]);
    true
}

/// A field of a slab's word: class, used or offset.
fn set_slab_word(book: &mut Damaged, rng: &mut Rng) -> bool {
    let Ok(ShHeadValue::Slab { class, used, off }) = unpack8(book.heads[book.key]) else {
        return false;
    };
    let (mark, any) = (book.mark(), 16 * rng.below(book.body.len() as u64 / 16));
    let (class, used, off) = match rng.below(3) {
        0 => (rng.pick(&[0, 1, class.wrapping_sub(1) & 63, (class + 1) & 63, 7, 8, 63]), used, off),
        1 => (class, rng.pick(&[2, used - 1, used.wrapping_add(1), 255, 256, 257, 65_535]), off),
        _ => {
            let end = mark.saturating_sub(16 << class.min(8));
            (class, used, rng.pick(&[any, any, off + 8, off - off % 4096 + 4096, 0, 16, 4080, end, end + 16, mark, (1 << 40) - 16]))
        }
    };
    book.heads[book.key] = 1 << 62 | (class as u64) << 56 | (used as u64) << 40 | off & 0xff_ffff_ffff;
    true
}

/// The page of a page's word.
fn set_page_word(book: &mut Damaged, rng: &mut Rng) -> bool {
    let Ok(ShHeadValue::Extent { last_page }) = unpack8(book.heads[book.key]) else {
        return false;
    };
    let any = 4096 * rng.below(book.body.len() as u64 / 4096 + 2);
    let off = rng.pick(&[any, any, last_page + 4096, last_page.saturating_sub(4096), last_page + 16, 2048, book.mark(), (1 << 62) - 4096]);
    book.heads[book.key] = 3 << 62 | off & ((1 << 62) - 1);
    true
}

fn set_mark(book: &mut Damaged, rng: &mut Rng) -> bool {
    let (mark, len) = (book.state.mark, book.body.len() as u64);
    let any = 16 * rng.below(len / 16 + 1);
    let flipped = flipped(rng, mark);
    book.state.mark = rng.pick(&[
        any,
        any,
        any,
        mark.wrapping_add(16),
        mark.wrapping_sub(16),
        mark ^ 8,
        0,
        4080,
        4096,
        len,
        len + 16,
        len - 16,
        flipped,
        u64::MAX,
    ]);
    true
}

/// The mark around where the key's block ends, or one of its pages.
fn set_mark_near(book: &mut Damaged, rng: &mut Rng) -> bool {
    let end = match (book.slab(), book.page(rng)) {
        (Some((class, off)), _) => off + slab_bytes(class),
        (_, Some(off)) => off + PAGE as u64,
        _ => return false,
    };
    book.state.mark = rng.pick(&[end, end, end - 16, end - 16, end + 16, end.wrapping_sub(PAGE as u64), end - 8]);
    true
}

/// Every free head names the key's own block, or a place within it or before it; the block may be filled, so that the list has to move.
fn free_own_block(book: &mut Damaged, rng: &mut Rng) -> bool {
    match book.place() {
        Some(ShHeadValue::Extent { last_page }) => fill_page(page_mut(book.body, last_page), rng, 0),
        _ if rng.below(3) != 0 && !pad_slab(book, rng) => return false,
        _ => {}
    }
    let (off, within) = match book.place() {
        Some(ShHeadValue::Slab { off, class, .. }) => (off, slab_bytes(class)),
        Some(ShHeadValue::Extent { last_page }) => (last_page, PAGE as u64),
        _ => return false,
    };
    for class in 0..9 {
        let inside = off + 16 * rng.below(within / 16 + 1);
        let near = rng.pick(&[off, off, inside, off.saturating_sub(16 << class)]);
        book.state.free[class] = if class == 8 { off - off % PAGE as u64 } else { near };
    }
    true
}

/// A free head: none, any block, one in use, unaligned, and around the bounds.
fn set_free_head(book: &mut Damaged, rng: &mut Rng) -> bool {
    let (mark, class) = (book.mark(), rng.below(9));
    let unit = if class == 8 { 4096 } else { 16 };
    let any = 4096 + unit * rng.below((mark - 4096) / unit + 1);
    let in_use = match unpack8(book.heads[rng.below(book.heads.len() as u64) as usize]) {
        Ok(ShHeadValue::Slab { off, .. }) => off,
        Ok(ShHeadValue::Extent { last_page }) => last_page,
        _ => any,
    };
    let end = mark.saturating_sub(16 << class);
    let flipped = flipped(rng, book.state.free[class as usize]);
    book.state.free[class as usize] =
        rng.pick(&[0, any, any, any, in_use, in_use, any + 8, 2048, 4080, end, end + 16, end + 4096, mark, flipped, u64::MAX]);
    true
}

/// The link in a freed block: the block itself, none, or any number.
fn set_free_link(book: &mut Damaged, rng: &mut Rng) -> bool {
    let head = book.state.free[rng.below(9) as usize];
    let any = 16 * rng.below(book.body.len() as u64 / 16);
    let next = rng.pick(&[head, 0, any, any, any + 1, u64::MAX]);
    match book.body.get_mut(head as usize..).and_then(|b| b.get_mut(..8)) {
        Some(link) if head >= 4096 => link.copy_from_slice(&next.to_le_bytes()),
        _ => return false,
    }
    true
}

/// A count: near what it is, within the body's pages, just above them, or far.
fn some_count(book: &Damaged, rng: &mut Rng, is: u64) -> u64 {
    let pages = (book.body.len() / PAGE) as u64;
    let within = rng.below(pages + 1);
    let flipped = flipped(rng, is);
    rng.pick(&[is + 1, is.saturating_sub(1), 0, within, within, pages - 1, pages, pages + 1, flipped, u64::MAX])
}

/// The key's desk, or any.
fn some_desk(book: &Damaged, rng: &mut Rng) -> usize {
    let any = rng.below(DESKS as u64) as usize;
    rng.pick(&[book.desk, book.desk, any])
}

fn set_freed(book: &mut Damaged, rng: &mut Rng) -> bool {
    book.state.counts.freed = some_count(book, rng, book.state.counts.freed & 0xffff_ffff);
    true
}

fn set_held(book: &mut Damaged, rng: &mut Rng) -> bool {
    let desk = some_desk(book, rng);
    book.state.counts.held[desk] = some_count(book, rng, book.state.counts.held[desk] & 0xffff_ffff);
    true
}

fn set_reserve(book: &mut Damaged, rng: &mut Rng) -> bool {
    let desk = some_desk(book, rng);
    book.state.counts.limits.reserve[desk] = some_count(book, rng, book.state.counts.limits.reserve[desk] & 0xffff_ffff);
    true
}

fn set_ceiling(book: &mut Damaged, rng: &mut Rng) -> bool {
    let desk = some_desk(book, rng);
    book.state.counts.limits.ceiling[desk] = some_count(book, rng, book.state.counts.held[desk] & 0xffff_ffff);
    true
}

/// Of a page's free head and the freed pages one becomes 0, or not 0; the key's page may be filled, so that the next append takes one.
fn part_head_and_count(book: &mut Damaged, rng: &mut Rng) -> bool {
    match book.place() {
        Some(ShHeadValue::Extent { last_page }) => fill_page(page_mut(book.body, last_page), rng, 0),
        _ => return false,
    }
    match rng.below(3) {
        0 => book.state.free[8] = 0,
        1 => book.state.free[8] = rng.pick(&[4096, 8192, book.mark() / 4096 * 4096]),
        _ => book.state.counts.freed = rng.pick(&[0, 0, 1, 2]),
    }
    true
}

/// The freed pages, where there are some in a list that can be searched.
fn freed_list(book: &Damaged) -> Option<Vec<u64>> {
    freed_pages(book.body, book.state).ok().filter(|pages| !pages.is_empty())
}

/// Makes a freed page's link, or the free head of pages, name an offset.
fn lead_list(book: &mut Damaged, rng: &mut Rng, pages: &[u64], to: u64) {
    match rng.below(pages.len() as u64 + 1) as usize {
        0 => book.state.free[8] = to,
        at => book.body[pages[at - 1] as usize..][..8].copy_from_slice(&to.to_le_bytes()),
    }
}

/// The list comes back to a page of it; it may be counted as long as the body has pages, or as no list can be.
fn loop_list(book: &mut Damaged, rng: &mut Rng) -> bool {
    let Some(pages) = freed_list(book) else { return false };
    let from = rng.below(pages.len() as u64) as usize;
    let to = pages[rng.below(from as u64 + 1) as usize];
    book.body[pages[from] as usize..][..8].copy_from_slice(&to.to_le_bytes());
    let most = book.mark() / PAGE as u64;
    let is = book.state.counts.freed;
    book.state.counts.freed = rng.pick(&[is, is, is, most - 1, most, from as u64 + 1, 1 << 40, u64::MAX]);
    true
}

/// The list goes on where no freed page can stand: unaligned, before 4,096, at the mark or behind it; or in a page in use.
fn stray_from_list(book: &mut Damaged, rng: &mut Rng) -> bool {
    let Some(pages) = freed_list(book) else { return false };
    let (mark, any) = (book.mark(), rng.pick(&pages));
    let in_use = book.page(rng).unwrap_or(mark);
    let after = mark.next_multiple_of(PAGE as u64);
    let far = u64::MAX - u64::MAX % PAGE as u64;
    let to = rng.pick(&[
        any + 8,
        any + 16,
        any + 2048,
        8,
        2048,
        4080,
        mark / 4096 * 4096,
        after,
        after + 4096,
        in_use,
        in_use,
        1 << 40,
        far,
        u64::MAX,
    ]);
    lead_list(book, rng, &pages, to);
    true
}

/// The list ends at a page before its last.
fn end_list(book: &mut Damaged, rng: &mut Rng) -> bool {
    let Some(pages) = freed_list(book).filter(|pages| pages.len() > 1) else { return false };
    let at = pages[rng.below(pages.len() as u64 - 1) as usize];
    book.body[at as usize..][..8].fill(0);
    true
}

/// More or fewer pages are counted than the list has.
fn count_list(book: &mut Damaged, rng: &mut Rng) -> bool {
    let Some(pages) = freed_list(book) else { return false };
    let (is, most) = (pages.len() as u64, (book.body.len() / PAGE) as u64);
    book.state.counts.freed = rng.pick(&[is + 1, is - 1, is + 2, most, most + 1, 1, u64::MAX]);
    book.state.counts.freed != is
}

/// The mark stands within a freed page, or before it.
fn mark_in_list(book: &mut Damaged, rng: &mut Rng) -> bool {
    let Some(pages) = freed_list(book) else { return false };
    let at = rng.pick(&pages);
    book.state.mark = rng.pick(&[at, at + 16, at + 2048, at + 4080]).max(PAGE as u64);
    true
}

/// A free head of 0 with a count, or a count of 0 with a head.
fn part_list(book: &mut Damaged, rng: &mut Rng) -> bool {
    let pages = freed_list(book);
    match (rng.below(2), pages) {
        (0, Some(_)) => book.state.counts.freed = 0,
        (_, Some(_)) => book.state.free[8] = 0,
        (_, None) => (book.state.free[8], book.state.counts.freed) = (0, rng.pick(&[1, 1, 2, 4])),
    }
    true
}

/// Links the freed pages in any order.
fn shuffle_list(book: &mut Damaged, rng: &mut Rng) -> bool {
    let Some(mut pages) = freed_list(book).filter(|pages| pages.len() > 1) else { return false };
    for k in (1..pages.len()).rev() {
        pages.swap(k, rng.below(k as u64 + 1) as usize);
    }
    book.state.free[8] = pages[0];
    for (k, page) in pages.iter().enumerate() {
        let next = pages.get(k + 1).copied().unwrap_or(0);
        book.body[*page as usize..][..8].copy_from_slice(&next.to_le_bytes());
    }
    true
}
