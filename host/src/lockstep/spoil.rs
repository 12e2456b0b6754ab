//! Padded and bad streams, written into the key's slab or into one of its pages, and other links, creates and fields of pages.
use crate::inputs::form;
use crate::lockstep::damage::Damaged;
use crate::rng::Rng;
use crate::second_book::page_mut;
use crate::second_book::space::PAGE;
use oracle::read_uleb128;
use oracle::scripthash_layout::{slab_bytes, ShHeadValue};
use oracle::scripthash_pages as pages;

/// Forms of so many differences, small ones or not, that take so many bytes together, each up to ten.
fn padded(rng: &mut Rng, count: usize, bytes: usize) -> Vec<u8> {
    let longest = rng.pick(&[1, 1, 2, 5]);
    let mut lens = vec![1; count];
    let mut left = bytes.min(10 * count) - count;
    let mut k = 0;
    while left > 0 {
        let more = (10 - lens[k]).min(left).min(if rng.below(3) == 0 { 9 } else { left.div_ceil(count) });
        lens[k] += more;
        left -= more;
        k = (k + 1) % count;
    }
    let mut out = Vec::new();
    for len in lens {
        let most = 7 * longest.min(len as u32);
        let value = if longest == 5 { rng.next() >> (64 - most) | 1 << (most - 1) } else { 1.max(rng.bits(most)) };
        out.extend(form(value, len - form(value, 0).len()));
    }
    out
}

/// Where a slab of any class can stand for the key: its own place, if it is large enough, or any below the mark.
fn some_slab(book: &Damaged, rng: &mut Rng) -> Option<(u8, u64)> {
    let class = rng.below(8) as u8;
    let size = slab_bytes(class);
    let own = book.slab();
    if own.is_some_and(|(c, _)| c >= class || rng.below(2) == 0) {
        return own;
    }
    (book.mark() >= 4096 + size).then(|| (class, 4096 + 16 * rng.below((book.mark() - 4096 - size) / 16 + 1)))
}

/// A slab that padded forms fill, or almost fill, for as few numbers as can or for more.
pub fn pad_slab(book: &mut Damaged, rng: &mut Rng) -> bool {
    let Some((class, off)) = some_slab(book, rng) else {
        return false;
    };
    let room = slab_bytes(class) as usize - 2;
    let bytes = room - rng.pick(&[0, 0, 1, 2, 2, 2, 8, 9]);
    let least = bytes.div_ceil(10).max(2);
    let most = bytes.min(256);
    if least > most {
        return false;
    }
    let any = least + rng.below((most - least + 1) as u64) as usize;
    let count = rng.pick(&[least, least, any, most]);
    let bytes = padded(rng, count, bytes);
    let slab = &mut book.body[off as usize..][..room + 2];
    slab[..2].copy_from_slice(&(count as u16).to_le_bytes());
    slab[2..2 + bytes.len()].copy_from_slice(&bytes);
    book.put_word(class, count, off);
    true
}

/// The start of a stream in which something is wrong with the second number or the first, and how many numbers it has.
fn bad_stream(rng: &mut Rng) -> (Vec<u8>, usize) {
    let two = |a: u64, b: u64| ([form(a, 0), form(b, 0)].concat(), 2);
    match rng.below(12) {
        0 => two(0, 5),
        1 => two(5, 0),
        2 => two(5, (1 << 62) - 5),
        3 => two(5, (1 << 62) - 6),
        4 => two(5, (1 << 63) - 5),
        5 => two(5, u64::MAX - 4),
        6 => two(5, u64::MAX),
        7 => two(1 << 62, 1),
        8 => two(1 << 63, 1),
        9 => ([vec![5], vec![0xff; 9], vec![2]].concat(), 2),
        10 => ([vec![5], vec![0x80; 11]].concat(), 2),
        _ => ([vec![5], form(9, 9), vec![7]].concat(), 3),
    }
}

/// A slab whose stream is bad, or cut short by its end.
pub fn spoil_slab(book: &mut Damaged, rng: &mut Rng) -> bool {
    let Some((class, off)) = some_slab(book, rng) else {
        return false;
    };
    let slab = &mut book.body[off as usize..][..slab_bytes(class) as usize];
    if rng.below(6) == 0 {
        // Numbers of one byte, and a last one that the slab's end cuts short.
        let count = (slab.len() - 2).min(256);
        slab[2..].fill(1);
        slab[1 + count] |= 0x80;
        let used = if count < slab.len() - 2 { count } else { count + rng.below(2) as usize }.min(256);
        slab[..2].copy_from_slice(&(used as u16).to_le_bytes());
        book.put_word(class, used, off);
        return true;
    }
    let (bytes, used) = bad_stream(rng);
    if bytes.len() + 2 > slab.len() {
        return false;
    }
    slab[..2].copy_from_slice(&(used as u16).to_le_bytes());
    slab[2..2 + bytes.len()].copy_from_slice(&bytes);
    book.put_word(class, used, off);
    true
}

/// Fills a page with padded forms, save for some bytes. Creates stays what it was, is made good, or becomes 0, unknown.
pub fn fill_page(page: &mut [u8; PAGE], rng: &mut Rng, left: usize) {
    let start = pages::sh_page_stream_off(page);
    let bytes = PAGE - start - left;
    let count = rng.pick(&[bytes.div_ceil(10), bytes / 2]);
    page[start..].fill(0);
    let stream = padded(rng, count, bytes);
    page[start..start + stream.len()].copy_from_slice(&stream);
    pages::sh_page_set_n_fks(page, count as u16);
    match rng.below(3) {
        0 => pages::sh_page_set_extent_creates(page, count as u32),
        1 => pages::sh_page_set_extent_creates(page, 0),
        _ => {}
    }
}

/// A page that padded forms fill, or almost fill.
pub fn pad_page(book: &mut Damaged, rng: &mut Rng) -> bool {
    let Some((_, page)) = book.page_mut(rng) else {
        return false;
    };
    let left = rng.pick(&[0, 1, 5, 9, 500]);
    fill_page(page, rng, left);
    true
}

/// A page that begins with the last number of the page before it, or with a neighbour of that; the form keeps its length.
pub fn meet_across_link(book: &mut Damaged, rng: &mut Rng) -> bool {
    let Some((_, page)) = book.page_mut(rng) else {
        return false;
    };
    let (Ok(last), Ok(next)) = (pages::sh_page_last_fk(page), pages::sh_page_next(page)) else {
        return false;
    };
    let Some(part) = book.body.get_mut(next as usize..next as usize + PAGE).filter(|_| next != 0) else {
        return false;
    };
    let at = if part[0] == 2 { 24 } else { 8 };
    let number = (last.map_or(0, |fk| fk.0) + 1).wrapping_sub(rng.pick(&[0, 1, 1, 1, 2]));
    let (Ok((_, len)), shortest) = (read_uleb128(&part[at..]), form(number, 0).len()) else {
        return false;
    };
    if shortest <= len {
        part[at..at + len].copy_from_slice(&form(number, len - shortest));
    }
    shortest <= len
}

/// A page whose stream is bad, or cut short by its end.
pub fn spoil_page(book: &mut Damaged, rng: &mut Rng) -> bool {
    let Some((_, page)) = book.page_mut(rng) else {
        return false;
    };
    let start = pages::sh_page_stream_off(page);
    if rng.below(6) == 0 {
        page[start..].fill(1);
        page[PAGE - 1] = 0x80;
        pages::sh_page_set_n_fks(page, (PAGE - start) as u16);
        return true;
    }
    let (bytes, used) = bad_stream(rng);
    page[start..start + bytes.len()].copy_from_slice(&bytes);
    pages::sh_page_set_n_fks(page, used as u16);
    true
}

pub fn set_version(book: &mut Damaged, rng: &mut Rng) -> bool {
    let Some((_, page)) = book.page_mut(rng) else {
        return false;
    };
    page[0] = rng.pick(&[0, 1, 2, 3, 255]);
    if rng.below(3) == 0 {
        pages::sh_page_set_n_fks(page, 0);
    }
    true
}

pub fn set_count(book: &mut Damaged, rng: &mut Rng) -> bool {
    let Some((_, page)) = book.page_mut(rng) else {
        return false;
    };
    let n = u16::from_le_bytes([page[1], page[2]]);
    let n = rng.pick(&[0, 1, n.wrapping_sub(1), n.wrapping_add(1), 4072, 4073, 4088, 4089, 65_535]);
    pages::sh_page_set_n_fks(page, n);
    true
}

/// A page's link: LAST or not, to any page, to itself, to page 0, or past the body.
pub fn set_link(book: &mut Damaged, rng: &mut Rng) -> bool {
    let Some(off) = book.page(rng) else {
        return false;
    };
    let other = book.page(rng).unwrap_or(off);
    let (any, end) = (4096 * rng.below(book.body.len() as u64 / 4096 + 1), book.mark() / 4096 * 4096);
    let page = page_mut(book.body, off);
    let (last, to) = pages::sh_page_read_packed(page).expect("a link is always read");
    let to = rng.pick(&[to, to, to, other, other, off, any, 0, end, end.saturating_sub(4096), ((1 << 39) - 1) * 4096]);
    let last = if rng.below(3) == 0 { !last } else { last };
    pages::sh_page_write_packed(page, last, to).expect("a link that can be written");
    true
}

/// A page that leads to itself or to the first one.
pub fn make_loop(book: &mut Damaged, rng: &mut Rng) -> bool {
    let (Some(off), Some(ShHeadValue::Extent { last_page })) = (book.page(rng), book.place()) else {
        return false;
    };
    let first = pages::sh_page_read_packed(page_mut(book.body, last_page)).expect("a link is always read").1;
    let to = rng.pick(&[first, off]);
    off != last_page && pages::sh_page_set_next(page_mut(book.body, off), to).is_ok()
}

/// A chain of two pages that change places, so that the last is before the first; the key stays sound. The mark may go to the first one's end.
pub fn turn_chain(book: &mut Damaged, rng: &mut Rng) -> bool {
    let Some(ShHeadValue::Extent { last_page: last }) = book.place() else {
        return false;
    };
    let first = pages::sh_page_read_packed(page_mut(book.body, last)).expect("a link is always read").1;
    if first < PAGE as u64 || first >= last || pages::sh_page_next(page_mut(book.body, first)).ok() != Some(last) {
        return false;
    }
    let (low, high) = book.body.split_at_mut(last as usize);
    low[first as usize..first as usize + PAGE].swap_with_slice(&mut high[..PAGE]);
    pages::sh_page_set_last(page_mut(book.body, first), last).expect("a page that a link named");
    pages::sh_page_set_next(page_mut(book.body, last), first).expect("a page that a link named");
    book.heads[book.key] = 3 << 62 | first;
    let end = last + PAGE as u64;
    book.state.mark = rng.pick(&[book.state.mark, end, end - 16]);
    true
}

pub fn set_extent(book: &mut Damaged, rng: &mut Rng) -> bool {
    let Some((off, page)) = book.page_mut(rng) else {
        return false;
    };
    match rng.below(2) {
        0 => page[8..16].copy_from_slice(&rng.pick(&[0, 1, 4096, 2048, off + 1, 1 << 63]).to_le_bytes()),
        _ => page[16..20].copy_from_slice(&rng.pick(&[0u32, 1, 2, u32::MAX]).to_le_bytes()),
    }
    true
}

pub fn set_creates(book: &mut Damaged, rng: &mut Rng) -> bool {
    let Some((_, page)) = book.page_mut(rng) else {
        return false;
    };
    let n = pages::sh_page_extent_creates(page);
    pages::sh_page_set_extent_creates(page, rng.pick(&[0, 1, n.wrapping_add(1), n.wrapping_sub(1), u32::MAX, u32::MAX - 1, u32::MAX - 2]));
    true
}
