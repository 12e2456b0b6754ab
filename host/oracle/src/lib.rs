//! The published source, and a lent body in place of its table file.
#![allow(dead_code)]
include!(concat!(env!("OUT_DIR"), "/modules.rs"));

pub use compact::{read_uleb128, uleb128_len, write_uleb128_into, PackError};
pub use fk::Fk;

pub mod page_boundary;

/// What stands in for the table file.
pub mod file {
    use crate::error::StoreError;
    use std::cell::Cell;

    /// A body that the caller lends.
    pub struct TableFile<'a>(pub &'a [Cell<u8>]);

    /// What reading or writing past the end of a lent body answers.
    pub const PAST_THE_END: &str = "lent body: past the end";

    impl TableFile<'_> {
        fn part(&self, offset: u64, len: usize) -> Result<&[Cell<u8>], StoreError> {
            let from = usize::try_from(offset).unwrap_or(usize::MAX);
            let part = self.0.get(from..).and_then(|rest| rest.get(..len));
            part.ok_or(StoreError::Corrupt(PAST_THE_END))
        }

        #[inline]
        pub fn read_at(&self, offset: u64, buf: &mut [u8]) -> Result<(), StoreError> {
            let part = self.part(offset, buf.len())?;
            buf.iter_mut().zip(part).for_each(|(b, cell)| *b = cell.get());
            Ok(())
        }

        #[inline]
        pub fn write_at(&self, offset: u64, bytes: &[u8]) -> Result<(), StoreError> {
            let part = self.part(offset, bytes.len())?;
            bytes.iter().zip(part).for_each(|(b, cell)| cell.set(*b));
            Ok(())
        }
    }
}

/// Small functions of the source behind the kind of boundary that ours have: not inlined, pointers and lengths, a number for the answer.
/// They serve the measurements alone.
pub mod boundary {
    use crate::file::TableFile;
    use crate::scripthash_layout::{pack8 as pack, unpack8 as unpack, ShHeadValue, SH_MAX_CLASS};
    use crate::{compact, free_lists, scripthash_slabs};
    use std::cell::Cell;

    #[inline(never)]
    pub extern "C" fn uleb128_len(n: u64) -> usize {
        compact::uleb128_len(n)
    }

    /// # Safety
    /// `buf` points to `buf_len` bytes.
    #[inline(never)]
    pub unsafe extern "C" fn read_uleb128(buf: *const u8, buf_len: usize, value: &mut u64, len: &mut usize) -> u32 {
        match compact::read_uleb128(std::slice::from_raw_parts(buf, buf_len)) {
            Ok((v, l)) => {
                *value = v;
                *len = l;
                0
            }
            Err(_) => 1,
        }
    }

    /// # Safety
    /// `dst` points to `dst_len` bytes.
    #[inline(never)]
    pub unsafe extern "C" fn write_uleb128_into(dst: *mut u8, dst_len: usize, n: u64, len: &mut usize) -> u32 {
        match compact::write_uleb128_into(std::slice::from_raw_parts_mut(dst, dst_len), n) {
            Ok(l) => {
                *len = l;
                0
            }
            Err(_) => 1,
        }
    }

    #[inline(never)]
    pub extern "C" fn pack8_slab(class: u8, used: u16, off: u64, word: &mut u64) -> u32 {
        match pack(&ShHeadValue::Slab { class, used, off }) {
            Ok(w) => {
                *word = w;
                0
            }
            Err(_) => 1,
        }
    }

    #[inline(never)]
    pub extern "C" fn unpack8(w: u64, kind: &mut u8, class: &mut u8, used: &mut u16, place: &mut u64) -> u32 {
        let Ok(v) = unpack(w) else {
            return 1;
        };
        (*kind, *class, *used, *place) = match v {
            ShHeadValue::Empty => (0, 0, 0, 0),
            ShHeadValue::Inline { entries, used } => (1, 0, used as u16, entries[0].0),
            ShHeadValue::Slab { class, used, off } => (2, class, used, off),
            ShHeadValue::Extent { last_page } => (3, 0, 0, last_page),
        };
        0
    }

    /// Hands out a class, and tells whether there is one.
    fn put(choice: Option<u8>, class: &mut u8) -> bool {
        choice.inspect(|c| *class = *c).is_some()
    }

    #[inline(never)]
    pub extern "C" fn slab_class_for_packed_len(len: usize, class: &mut u8) -> bool {
        put(scripthash_slabs::slab_class_for_packed_len(len), class)
    }

    #[inline(never)]
    pub extern "C" fn slab_class_for_n_fks(n: u32, class: &mut u8) -> bool {
        put(scripthash_slabs::slab_class_for_n_fks(n), class)
    }

    #[inline(never)]
    pub extern "C" fn slab_class_for_n_fks_with_slack(n: u32, class: &mut u8) -> bool {
        put(scripthash_slabs::slab_class_for_n_fks_with_slack(n), class)
    }

    /// The free heads of the source's classes.
    pub type FreeHeads = [u64; SH_MAX_CLASS as usize + 1];

    /// A body that is lent by its pointer and length.
    ///
    /// # Safety
    /// `body` points to `len` bytes.
    unsafe fn lent<'a>(body: *mut u8, len: usize) -> TableFile<'a> {
        TableFile(Cell::from_mut(std::slice::from_raw_parts_mut(body, len)).as_slice_of_cells())
    }

    /// # Safety
    /// `body` points to `len` bytes.
    #[inline(never)]
    pub unsafe extern "C" fn push_free_head(body: *mut u8, len: usize, heads: &mut FreeHeads, class: u8, off: u64) -> u32 {
        free_lists::push_free_head(&lent(body, len), heads, class, off).is_err() as u32
    }

    /// # Safety
    /// `body` points to `len` bytes.
    #[inline(never)]
    pub unsafe extern "C" fn pop_free_head(body: *mut u8, len: usize, heads: &mut FreeHeads, class: u8, off: &mut u64) -> u32 {
        match free_lists::pop_free_head(&lent(body, len), heads, class) {
            Ok(block) => {
                *off = block.unwrap_or(0);
                0
            }
            Err(_) => 1,
        }
    }

    /// # Safety
    /// `body` points to `len` bytes.
    #[inline(never)]
    pub unsafe extern "C" fn carve_gap_into_freelist(body: *mut u8, len: usize, heads: &mut FreeHeads, from: u64, to: u64) -> u32 {
        free_lists::carve_gap_into_freelist(&lent(body, len), heads, from, to).is_err() as u32
    }
}
