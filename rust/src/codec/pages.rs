//! Pages of 4,096 bytes: their fields, and the streams that they hold.
use crate::{answer, sys, Refusal};

/// A number that a function of the library hands out.
#[inline]
fn handed<T: Default>(call: impl FnOnce(&mut T) -> u32) -> Result<T, Refusal> {
    let mut told = T::default();
    let number = call(&mut told);
    answer(number, told)
}

/// What a page's link says.
#[derive(Clone, Copy, Debug, PartialEq, Eq)]
pub struct Link {
    /// Whether the page is the last of its chain.
    pub last: bool,
    /// The offset of the page that it names: the next one, or of a last page the first of the chain.
    pub off: u64,
}

/// A page's link.
///
/// # Errors
///
/// Refuses 4.
#[inline]
pub fn sh_page_read_packed(page: &[u8]) -> Result<Link, Refusal> {
    let (mut last, mut off) = (false, 0);
    let number = sys::sh_page_read_packed(page, &mut last, &mut off);
    answer(number, Link { last, off })
}

/// Whether a page is the last.
///
/// # Errors
///
/// Refuses 4.
#[inline]
pub fn sh_page_is_last(page: &[u8]) -> Result<bool, Refusal> {
    handed(|last| sys::sh_page_is_last(page, last))
}

/// The first page's offset, of a page that is the last.
///
/// # Errors
///
/// Refuses 4, 7.
#[inline]
pub fn sh_page_first_off(page: &[u8]) -> Result<u64, Refusal> {
    handed(|off| sys::sh_page_first_off(page, off))
}

/// The next page's offset, 0 where the page is the last.
///
/// # Errors
///
/// Refuses 4.
#[inline]
pub fn sh_page_next(page: &[u8]) -> Result<u64, Refusal> {
    handed(|off| sys::sh_page_next(page, off))
}

/// Writes a page's link.
///
/// # Errors
///
/// Refuses 4 to 6.
#[inline]
pub fn sh_page_write_packed(page: &mut [u8], link: Link) -> Result<(), Refusal> {
    answer(sys::sh_page_write_packed(page, link.last, link.off), ())
}

/// Makes a page the last, with the first page's offset.
///
/// # Errors
///
/// Refuses 4 to 6.
#[inline]
pub fn sh_page_set_last(page: &mut [u8], first_off: u64) -> Result<(), Refusal> {
    answer(sys::sh_page_set_last(page, first_off), ())
}

/// Gives a page a next page.
///
/// # Errors
///
/// Refuses 4 to 6.
#[inline]
pub fn sh_page_set_next(page: &mut [u8], next_off: u64) -> Result<(), Refusal> {
    answer(sys::sh_page_set_next(page, next_off), ())
}

/// Where a page's stream starts.
///
/// # Errors
///
/// Refuses 4.
#[inline]
pub fn sh_page_stream_off(page: &[u8]) -> Result<usize, Refusal> {
    handed(|off| sys::sh_page_stream_off(page, off))
}

/// How many bytes a page's stream may take.
///
/// # Errors
///
/// Refuses 4.
#[inline]
pub fn sh_page_stream_cap(page: &[u8]) -> Result<usize, Refusal> {
    handed(|cap| sys::sh_page_stream_cap(page, cap))
}

/// An extent: pages side by side.
#[derive(Clone, Copy, Debug, PartialEq, Eq)]
pub struct Extent {
    /// The offset of the first.
    pub base: u64,
    /// How many there are.
    pub n: u32,
}

/// The extent that a page names, if it names one.
///
/// # Errors
///
/// Refuses 4, 8, 9.
#[inline]
pub fn sh_page_extent(page: &[u8]) -> Result<Option<Extent>, Refusal> {
    let (mut base, mut n) = (0, 0);
    let number = sys::sh_page_extent(page, &mut base, &mut n);
    answer(number, (n != 0).then_some(Extent { base, n }))
}

/// Makes a page name an extent.
///
/// **Warning:** on a page of version 1 this writes over the first 16 bytes of its stream; it is for pages without numbers.
///
/// # Errors
///
/// Refuses 4, 8, 9.
#[inline]
pub fn sh_page_set_extent(page: &mut [u8], extent: Extent) -> Result<(), Refusal> {
    answer(sys::sh_page_set_extent(page, extent.base, extent.n), ())
}

/// A page's creates, 0 where it names no extent.
///
/// # Errors
///
/// Refuses 4.
#[inline]
pub fn sh_page_extent_creates(page: &[u8]) -> Result<u32, Refusal> {
    handed(|n| sys::sh_page_extent_creates(page, n))
}

/// Writes a page's creates, where it names an extent.
///
/// # Errors
///
/// Refuses 4.
#[inline]
pub fn sh_page_set_extent_creates(page: &mut [u8], n: u32) -> Result<(), Refusal> {
    answer(sys::sh_page_set_extent_creates(page, n), ())
}

/// How many numbers a page has.
///
/// # Errors
///
/// Refuses 4, 15.
#[inline]
pub fn sh_page_n_fks(page: &[u8]) -> Result<usize, Refusal> {
    handed(|n| sys::sh_page_n_fks(page, n))
}

/// Writes a page's count.
///
/// **Warning:** with 0 the page reads as empty although its numbers still stand in it, and with too small a count its last numbers are
/// passed over; no function on single pages notices.
///
/// # Errors
///
/// Refuses 4.
#[inline]
pub fn sh_page_set_n_fks(page: &mut [u8], n: u16) -> Result<(), Refusal> {
    answer(sys::sh_page_set_n_fks(page, n), ())
}

/// Passes a page that can be read.
///
/// # Errors
///
/// Refuses 4, 15, 16.
#[inline]
pub fn sh_page_require_delta(page: &[u8]) -> Result<(), Refusal> {
    answer(sys::sh_page_require_delta(page), ())
}

/// Makes a page empty.
///
/// **Warning:** the page then reads as empty, whatever it held.
///
/// # Errors
///
/// Refuses 4.
#[inline]
pub fn sh_page_init_empty(page: &mut [u8]) -> Result<(), Refusal> {
    answer(sys::sh_page_init_empty(page), ())
}

/// The end of a page's stream.
#[derive(Clone, Copy, Debug, PartialEq, Eq)]
pub struct StreamTail {
    /// How many bytes the stream takes.
    pub taken: usize,
    /// The last number, 0 where there is none.
    pub last: u64,
}

/// The end of a page's stream.
///
/// # Errors
///
/// Refuses 4, 15 to 18, 20 to 23.
pub fn sh_page_stream_tail(page: &[u8]) -> Result<StreamTail, Refusal> {
    let (mut taken, mut last) = (0, 0);
    let number = sys::sh_page_stream_tail(page, &mut taken, &mut last);
    answer(number, StreamTail { taken, last })
}

/// The last number of a page, if it has one.
///
/// # Errors
///
/// Refuses 4, 15 to 18, 20 to 23.
pub fn sh_page_last_fk(page: &[u8]) -> Result<Option<u64>, Refusal> {
    let last = handed(|last| sys::sh_page_last_fk(page, last))?;
    Ok((last != 0).then_some(last))
}

/// A page's numbers that were read.
#[derive(Clone, Copy, Debug, PartialEq, Eq)]
#[must_use = "only the first `count` numbers of the lent list are the page's"]
pub struct PageEntries {
    /// How many numbers the page has.
    pub count: usize,
    /// How many of them are padded.
    pub padded: usize,
}

/// Reads the numbers of a page into the start of `out`.
///
/// # Errors
///
/// Refuses 4, 15 to 18, 20 to 23, 34.
pub fn sh_page_entries_into(page: &[u8], out: &mut [u64]) -> Result<PageEntries, Refusal> {
    let (mut count, mut padded) = (0, 0);
    let number = sys::sh_page_entries_into(page, out, &mut count, &mut padded);
    answer(number, PageEntries { count, padded })
}

/// A page's numbers that were read, and its next page.
#[derive(Clone, Copy, Debug, PartialEq, Eq)]
#[must_use = "only the first `count` numbers of the lent list are the page's"]
pub struct PageSlice {
    /// How many numbers the page has.
    pub count: usize,
    /// The next page's offset, 0 where the page is the last.
    pub next: u64,
    /// How many of the numbers are padded.
    pub padded: usize,
}

/// Reads the numbers of a page into the start of `out`, and tells its next page.
///
/// # Errors
///
/// Refuses 4, 15 to 18, 20 to 23, 34.
pub fn sh_page_decode_slice_into(page: &[u8], out: &mut [u64]) -> Result<PageSlice, Refusal> {
    let (mut count, mut next, mut padded) = (0, 0, 0);
    let number = sys::sh_page_decode_slice_into(page, out, &mut count, &mut next, &mut padded);
    answer(number, PageSlice { count, next, padded })
}

/// What an append to a page did.
#[derive(Clone, Copy, Debug, PartialEq, Eq)]
#[must_use = "a full page hasn't recorded the number"]
pub enum PageAppend {
    /// The number is recorded.
    Appended,
    /// The page is full, and the number isn't recorded.
    Full,
}

/// Appends a number to a page, unless the page is full.
///
/// ```
/// use ouriscado::codec::{sh_page_try_append, PageAppend};
/// let mut page = [0; 4096];
/// assert_eq!(sh_page_try_append(&mut page, 5), Ok(PageAppend::Appended));
/// ```
///
/// # Errors
///
/// Refuses 4, 12, 13, 15 to 18, 20 to 23, 32.
pub fn sh_page_try_append(page: &mut [u8], fk: u64) -> Result<PageAppend, Refusal> {
    let appended = handed(|appended| sys::sh_page_try_append(page, fk, appended))?;
    Ok(if appended { PageAppend::Appended } else { PageAppend::Full })
}

/// Writes the stream of a rising list to a page whose version is set, with its count, and tells the stream's length.
///
/// **Warning:** what the page held is replaced; an empty list makes it read as empty.
///
/// # Errors
///
/// Refuses 4, 10, 12, 13, 32, 33.
pub fn sh_page_write_stream(page: &mut [u8], fks: &[u64]) -> Result<usize, Refusal> {
    handed(|len| sys::sh_page_write_stream(page, fks, len))
}

/// Makes a page of version 1 of a rising list, with a next page's offset; 0 makes it the last.
///
/// **Warning:** what the page held is replaced; an empty list makes it read as empty.
///
/// # Errors
///
/// Refuses 4 to 6, 10, 12, 13, 32, 33.
pub fn sh_page_pack_fks(page: &mut [u8], fks: &[u64], next_off: u64) -> Result<(), Refusal> {
    answer(sys::sh_page_pack_fks(page, fks, next_off), ())
}

/// Makes a page of version 2 of a rising list, which names an extent, with a next page's offset; 0 makes it the last.
///
/// **Warning:** what the page held is replaced; an empty list makes it read as empty.
///
/// # Errors
///
/// Refuses 4 to 6, 8 to 10, 12, 13, 32, 33.
pub fn sh_page_pack_extent_last_fks(page: &mut [u8], fks: &[u64], extent: Extent, next_off: u64) -> Result<(), Refusal> {
    answer(sys::sh_page_pack_extent_last_fks(page, fks, extent.base, extent.n, next_off), ())
}
