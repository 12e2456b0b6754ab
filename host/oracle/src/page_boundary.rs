//! Functions of the source on a page's fields behind the kind of boundary that ours have; they serve the measurements alone.
//!
//! # Safety
//! `page` points to `len` bytes.
#![allow(clippy::missing_safety_doc)]
use crate::error::StoreError;
use crate::scripthash_pages as pages;
use std::slice::{from_raw_parts, from_raw_parts_mut};

/// Hands out what a call on a page that is read answers.
unsafe fn read<T>(page: *const u8, len: usize, call: impl FnOnce(&[u8; 4096]) -> Result<T, StoreError>, put: impl FnOnce(T)) -> u32 {
    pages::sh_page_as_array(from_raw_parts(page, len)).and_then(call).map(put).is_err() as u32
}

/// The same of a page that is changed.
unsafe fn change(page: *mut u8, len: usize, call: impl FnOnce(&mut [u8; 4096]) -> Result<(), StoreError>) -> u32 {
    pages::sh_page_as_array_mut(from_raw_parts_mut(page, len)).and_then(call).is_err() as u32
}

#[inline(never)]
pub unsafe extern "C" fn sh_page_read_packed(page: *const u8, len: usize, last: &mut bool, off: &mut u64) -> u32 {
    read(page, len, pages::sh_page_read_packed, |told| (*last, *off) = told)
}

#[inline(never)]
pub unsafe extern "C" fn sh_page_next(page: *const u8, len: usize, off: &mut u64) -> u32 {
    read(page, len, pages::sh_page_next, |told| *off = told)
}

#[inline(never)]
pub unsafe extern "C" fn sh_page_write_packed(page: *mut u8, len: usize, last: bool, off: u64) -> u32 {
    change(page, len, |page| pages::sh_page_write_packed(page, last, off))
}

#[inline(never)]
pub unsafe extern "C" fn sh_page_extent(page: *const u8, len: usize, base: &mut u64, n: &mut u32) -> u32 {
    read(page, len, pages::sh_page_extent, |told| (*base, *n) = told.unwrap_or((0, 0)))
}

#[inline(never)]
pub unsafe extern "C" fn sh_page_set_extent(page: *mut u8, len: usize, base: u64, n: u32) -> u32 {
    change(page, len, |page| pages::sh_page_set_extent(page, base, n))
}

#[inline(never)]
pub unsafe extern "C" fn sh_page_extent_creates(page: *const u8, len: usize, n: &mut u32) -> u32 {
    read(page, len, |page| Ok(pages::sh_page_extent_creates(page)), |told| *n = told)
}

#[inline(never)]
pub unsafe extern "C" fn sh_page_set_extent_creates(page: *mut u8, len: usize, n: u32) -> u32 {
    change(page, len, |page| Ok(pages::sh_page_set_extent_creates(page, n)))
}

#[inline(never)]
pub unsafe extern "C" fn sh_page_n_fks(page: *const u8, len: usize, n: &mut usize) -> u32 {
    read(page, len, pages::sh_page_n_fks, |told| *n = told as usize)
}

#[inline(never)]
pub unsafe extern "C" fn sh_page_set_n_fks(page: *mut u8, len: usize, n: u16) -> u32 {
    change(page, len, |page| Ok(pages::sh_page_set_n_fks(page, n)))
}

#[inline(never)]
pub unsafe extern "C" fn sh_page_require_delta(page: *const u8, len: usize) -> u32 {
    read(page, len, pages::sh_page_require_delta, drop)
}

#[inline(never)]
pub unsafe extern "C" fn sh_page_init_empty(page: *mut u8, len: usize) -> u32 {
    change(page, len, |page| Ok(pages::sh_page_init_empty(page)))
}
