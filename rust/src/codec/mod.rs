//! The ported functions: single head words, slabs, streams, pages and free lists, for those who work on bytes.
//!
//! Whoever keeps accounts needs [`Book`](crate::Book) alone. These functions know nothing of a book: used on parts of its body they can
//! damage it, and some can make a page read as empty; each says so. Where a function documents what it refuses, the numbers are those of
//! [`Refusal`]; after a refusal every buffer holds what it held.
//!
//! A number is padded where its stored form is longer than the shortest one of its value: it isn't wrong, and is read as any other. Only
//! other software writes such forms; what is written here is the shortest.
use crate::{answer, sys, Refusal};

mod pages;

pub use pages::*;
pub use sys::{payload_start, slab_bytes, slab_cap, uleb128_len};

/// A number that was read.
#[derive(Clone, Copy, Debug, PartialEq, Eq)]
pub struct Reading {
    /// The number.
    pub value: u64,
    /// The length of its form, in bytes.
    pub len: usize,
    /// Whether its form is the shortest of the number: where it isn't, the number is padded.
    pub shortest: bool,
}

/// Reads the ULEB128 number at the start of some bytes; padded forms are read.
///
/// ```
/// use ouriscado::codec::{read_uleb128, Reading};
/// assert_eq!(read_uleb128(&[0xb9, 0x64, 0xff]), Ok(Reading { value: 12857, len: 2, shortest: true }));
/// assert_eq!(read_uleb128(&[0xb9, 0xe4, 0x00]), Ok(Reading { value: 12857, len: 3, shortest: false }));
/// ```
///
/// # Errors
///
/// Refuses 17, 18.
#[inline]
pub fn read_uleb128(buf: &[u8]) -> Result<Reading, Refusal> {
    let (mut value, mut len, mut shortest) = (0, 0, false);
    let number = sys::read_uleb128(buf, &mut value, &mut len, &mut shortest);
    answer(number, Reading { value, len, shortest })
}

/// Writes a number's shortest ULEB128 form to the start of `dst`, and tells its length.
///
/// # Errors
///
/// Refuses 33.
#[inline]
pub fn write_uleb128_into(dst: &mut [u8], n: u64) -> Result<usize, Refusal> {
    let mut len = 0;
    let number = sys::write_uleb128_into(dst, n, &mut len);
    answer(number, len)
}

/// What a head word says of its key.
#[derive(Clone, Copy, Debug, PartialEq, Eq)]
pub enum Head {
    /// No number.
    Empty,
    /// One number.
    Inline {
        /// The number.
        entry: u64,
        /// How many numbers there are: 1.
        used: u8,
    },
    /// A slab.
    Slab {
        /// Its class.
        class: u8,
        /// How many numbers it has.
        used: u16,
        /// Its offset in the body.
        off: u64,
    },
    /// Pages.
    Extent {
        /// The offset of the last one.
        last_page: u64,
    },
}

impl Head {
    /// The head value of the four numbers that the library hands out.
    pub(crate) fn of_numbers(kind: u8, class: u8, used: u16, place: u64) -> Head {
        match kind {
            0 => Head::Empty,
            1 => Head::Inline { entry: place, used: used as u8 },
            2 => Head::Slab { class, used, off: place },
            _ => Head::Extent { last_page: place },
        }
    }
}

/// The word that stores a head value.
///
/// # Errors
///
/// Refuses 24, 25 of an inline number, 26 of a slab, 27 of pages.
pub fn pack8(head: Head) -> Result<u64, Refusal> {
    let mut word = 0;
    let number = match head {
        Head::Empty => sys::pack8_empty(&mut word),
        Head::Inline { entry, used } => sys::pack8_inline(entry, used, &mut word),
        Head::Slab { class, used, off } => sys::pack8_slab(class, used, off, &mut word),
        Head::Extent { last_page } => sys::pack8_extent(last_page, &mut word),
    };
    answer(number, word)
}

/// The eight bytes that store a head value.
///
/// # Errors
///
/// Refuses 24, 25 of an inline number, 26 of a slab, 27 of pages.
pub fn pack8_bytes(head: Head) -> Result<[u8; 8], Refusal> {
    let mut out = [0; 8];
    let number = match head {
        Head::Empty => sys::pack8_bytes_empty(&mut out),
        Head::Inline { entry, used } => sys::pack8_bytes_inline(entry, used, &mut out),
        Head::Slab { class, used, off } => sys::pack8_bytes_slab(class, used, off, &mut out),
        Head::Extent { last_page } => sys::pack8_bytes_extent(last_page, &mut out),
    };
    answer(number, out)
}

/// What a stored word says.
///
/// # Errors
///
/// Refuses 28 to 30.
pub fn unpack8(w: u64) -> Result<Head, Refusal> {
    let (mut kind, mut class, mut used, mut place) = (0, 0, 0, 0);
    let number = sys::unpack8(w, &mut kind, &mut class, &mut used, &mut place);
    answer(number, Head::of_numbers(kind, class, used, place))
}

/// What eight stored bytes say.
///
/// # Errors
///
/// Refuses 28 to 30.
pub fn unpack8_bytes(buf: &[u8; 8]) -> Result<Head, Refusal> {
    let (mut kind, mut class, mut used, mut place) = (0, 0, 0, 0);
    let number = sys::unpack8_bytes(buf, &mut kind, &mut class, &mut used, &mut place);
    answer(number, Head::of_numbers(kind, class, used, place))
}

/// A class that a function of the library hands out, if there is one.
#[inline]
fn class(choose: impl FnOnce(&mut u8) -> bool) -> Option<u8> {
    let mut class = 0;
    choose(&mut class).then_some(class)
}

/// The smallest class whose bytes hold some bytes: none for 0 or above 2,048.
#[inline]
#[must_use]
pub fn slab_class_for_packed_len(len: usize) -> Option<u8> {
    class(|c| sys::slab_class_for_packed_len(len, c))
}

/// The smallest class whose slots hold n numbers: none for 0, 1 or from 257 on.
#[inline]
#[must_use]
pub fn slab_class_for_n_fks(n: u32) -> Option<u8> {
    class(|c| sys::slab_class_for_n_fks(n, c))
}

/// The class for one number more than n, or where there is none the class for n.
#[inline]
#[must_use]
pub fn slab_class_for_n_fks_with_slack(n: u32) -> Option<u8> {
    class(|c| sys::slab_class_for_n_fks_with_slack(n, c))
}

/// Writes the stream of a rising list to the start of `out`, and tells its length.
///
/// # Errors
///
/// Refuses 12, 13, 32, 33.
pub fn encode_fk_delta_stream_into(out: &mut [u8], fks: &[u64]) -> Result<usize, Refusal> {
    let mut len = 0;
    let number = sys::encode_fk_delta_stream_into(out, fks, &mut len);
    answer(number, len)
}

/// A stream that was read.
#[derive(Clone, Copy, Debug, PartialEq, Eq)]
pub struct StreamRead {
    /// How many bytes it takes.
    pub taken: usize,
    /// How many of its numbers are padded.
    pub padded: usize,
}

/// Reads a stream of n numbers into the start of `out`.
///
/// ```
/// use ouriscado::codec::{decode_fk_delta_stream_into, StreamRead};
/// let mut list = [0; 2];
/// assert_eq!(decode_fk_delta_stream_into(&[0x81, 0x00, 0x02], 2, &mut list), Ok(StreamRead { taken: 3, padded: 1 }));
/// assert_eq!(list, [1, 3]);
/// ```
///
/// # Errors
///
/// Refuses 17, 18, 20 to 23, 34.
pub fn decode_fk_delta_stream_into(buf: &[u8], n: usize, out: &mut [u64]) -> Result<StreamRead, Refusal> {
    let (mut taken, mut padded) = (0, 0);
    let number = sys::decode_fk_delta_stream_into(buf, n, out, &mut taken, &mut padded);
    answer(number, StreamRead { taken, padded })
}

/// Writes the slab payload of a rising list to the start of `out`, and tells its length.
///
/// # Errors
///
/// Refuses 10 to 13, 32, 33.
pub fn encode_slab_payload_into(out: &mut [u8], fks: &[u64]) -> Result<usize, Refusal> {
    let mut len = 0;
    let number = sys::encode_slab_payload_into(out, fks, &mut len);
    answer(number, len)
}

/// A slab payload that was read.
#[derive(Clone, Copy, Debug, PartialEq, Eq)]
#[must_use = "only the first `used` numbers of the lent list are the slab's"]
pub struct SlabPayload {
    /// How many numbers it has.
    pub used: usize,
    /// How many bytes it takes.
    pub len: usize,
    /// How many of its numbers are padded.
    pub padded: usize,
}

/// Reads a slab payload into the start of `out`; bytes after the payload are ignored.
///
/// # Errors
///
/// Refuses 11, 17, 18, 20 to 23, 34.
pub fn decode_slab_payload_into(buf: &[u8], out: &mut [u64]) -> Result<SlabPayload, Refusal> {
    let (mut used, mut len, mut padded) = (0, 0, 0);
    let number = sys::decode_slab_payload_into(buf, out, &mut used, &mut len, &mut padded);
    answer(number, SlabPayload { used, len, padded })
}

/// A part of a list: the index of its first number, and the one behind its last.
pub type ChunkRange = [usize; 2];

/// Cuts a list into the parts that pages hold: tells how many, and puts their ranges to the start of `out`.
///
/// # Errors
///
/// Refuses 34.
pub fn sh_page_chunk_ranges(fks: &[u64], out: &mut [ChunkRange]) -> Result<usize, Refusal> {
    let mut parts = 0;
    let number = sys::sh_page_chunk_ranges(fks, out, &mut parts);
    answer(number, parts)
}

/// Cuts the last of the first `count` ranges of `chunks` again, into parts that fit a last page, and tells how many ranges there are then.
/// One that is empty, or leaves `fks`, stays.
///
/// # Errors
///
/// Refuses 34.
pub fn split_last_chunk_for_extent(fks: &[u64], chunks: &mut [ChunkRange], count: usize) -> Result<usize, Refusal> {
    let mut parts = 0;
    let number = sys::split_last_chunk_for_extent(fks, chunks, count, &mut parts);
    answer(number, parts)
}

/// The largest class of a slab whose blocks have at most so many bytes.
#[inline]
#[must_use]
pub fn largest_reloc_class_le(bytes: u64) -> Option<u8> {
    class(|c| sys::largest_reloc_class_le(bytes, c))
}

/// The free heads of the classes 0 to 8: the offset of each class's first freed block in a body, or 0.
#[derive(Clone, Copy, Debug, Default, PartialEq, Eq)]
pub struct FreeHeads(pub [u64; 9]);

impl FreeHeads {
    /// Pushes a block onto its class's free list.
    ///
    /// # Errors
    ///
    /// Refuses 35.
    pub fn push_free_head(&mut self, body: &mut [u8], class: u8, off: u64) -> Result<(), Refusal> {
        answer(sys::push_free_head(body, &mut self.0, class, off), ())
    }

    /// Pops a block of a class that lies below the mark, if there is one.
    ///
    /// # Errors
    ///
    /// Refuses 35.
    pub fn pop_free_head(&mut self, body: &[u8], class: u8, mark: u64) -> Result<Option<u64>, Refusal> {
        let mut off = 0;
        let number = sys::pop_free_head(body, &mut self.0, class, mark, &mut off);
        answer(number, (off != 0).then_some(off))
    }

    /// Carves the gap between two offsets into blocks, and pushes them.
    ///
    /// # Errors
    ///
    /// Refuses 35.
    pub fn carve_gap_into_freelist(&mut self, body: &mut [u8], from: u64, to: u64) -> Result<(), Refusal> {
        answer(sys::carve_gap_into_freelist(body, &mut self.0, from, to), ())
    }
}
