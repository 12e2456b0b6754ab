//! The exported calls of the book and of its core, until the crate in rust/ declares them: the book's are lent the desks of all keys, the core's
//! the number of the key's desk. With the feature `stand_in` the second book answers in their place, so that histories and what they meet can be
//! tried with a library that has none of them.
#![allow(clippy::too_many_arguments)]
use crate::second_book::desks::WORDS;

/// The words of the free heads, of the counts, and of a limit.
pub type Free = [u64; 9];
pub type Counts = [u64; WORDS];
pub type Limit = [u64; 16];

#[cfg(not(feature = "stand_in"))]
mod exported;
#[cfg(feature = "stand_in")]
mod stand_in;

#[cfg(not(feature = "stand_in"))]
pub use exported::*;
#[cfg(feature = "stand_in")]
pub use stand_in::*;
