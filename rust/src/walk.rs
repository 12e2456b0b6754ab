//! A book's accounts, one after the other.
use crate::{codec, Book, Place, Refusal};
use alloc::vec::Vec;
use core::ops::Range;

/// The places of a book's accounts, in the order of the keys: see [`Book::places`].
#[derive(Clone, Debug)]
pub struct Places<'a>(pub(crate) core::slice::Iter<'a, u64>);

impl Iterator for Places<'_> {
    type Item = Result<Place, Refusal>;

    fn next(&mut self) -> Option<Self::Item> {
        self.0.next().map(|word| codec::unpack8(*word).map(Place::from))
    }

    fn size_hint(&self) -> (usize, Option<usize>) {
        self.0.size_hint()
    }
}

impl ExactSizeIterator for Places<'_> {}

/// A book's accounts with their lists, in the order of the keys: see [`Book::lists`].
#[derive(Clone, Debug)]
pub struct Lists<'a, B: AsRef<[u8]>, H: AsRef<[u64]>> {
    pub(crate) book: &'a Book<B, H>,
    pub(crate) keys: Range<usize>,
}

impl<B: AsRef<[u8]>, H: AsRef<[u64]>> Iterator for Lists<'_, B, H> {
    type Item = (u64, Result<Vec<u64>, Refusal>);

    fn next(&mut self) -> Option<Self::Item> {
        let key = self.keys.next()? as u64;
        Some((key, self.book.read(key)))
    }

    fn size_hint(&self) -> (usize, Option<usize>) {
        self.keys.size_hint()
    }
}

impl<B: AsRef<[u8]>, H: AsRef<[u64]>> ExactSizeIterator for Lists<'_, B, H> {}
