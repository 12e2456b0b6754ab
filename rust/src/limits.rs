//! Sizes, kinds and limits, as in the C header.
//! Made by host/bindings.py from the exports and host/boundary: change those, and make it again.

/// The list is empty.
pub const KIND_EMPTY: u8 = 0;

/// One number, which stands in the head word itself.
pub const KIND_INLINE: u8 = 1;

/// 2 to 256 numbers, in a slab of the body.
pub const KIND_SLAB: u8 = 2;

/// In a chain of pages of the body.
pub const KIND_PAGES: u8 = 3;

/// Words of a state: the mark, nine free heads, then 49 counts.
pub const STATE_WORDS: usize = 59;

/// Free heads of a state, one for each class from 0 to 8.
pub const FREE_HEADS: usize = 9;

/// Counts of a state: freed pages, and of each desk the pages that it holds, then all reserves, then all ceilings.
pub const COUNT_WORDS: usize = 49;

/// Desks, of the numbers 0 to 15.
pub const DESKS: usize = 16;

/// The ceiling of a desk that may take every page.
pub const NO_CEILING: u64 = 18_446_744_073_709_551_615;

/// Bytes of a page, and the unit of a body's length.
pub const PAGE_BYTES: usize = 4096;

/// The least bytes of a body.
pub const LEAST_BODY_BYTES: usize = 8192;

/// The most bytes of a body.
pub const MOST_BODY_BYTES: usize = 2_199_023_255_552;

/// The offset that no slab which is taken ends past; pages may.
pub const SLABS_END: u64 = 1_099_511_627_776;

/// The most head words, one for each account.
pub const MOST_HEADS: usize = 65_536;

/// The largest record number.
pub const MOST_NUMBER: u64 = 4_611_686_018_427_387_903;

/// The most numbers in one load.
pub const MOST_LOADED: usize = 65_535;

/// The most numbers in a slab; a longer list stands in pages.
pub const MOST_IN_SLAB: usize = 256;

/// The most numbers in a page.
pub const MOST_IN_PAGE: usize = 4088;

/// The class of a page; slabs have the classes 0 to 7.
pub const PAGE_CLASS: u8 = 8;

/// Bytes of a body for each byte of the work list that a check is lent.
pub const WORK_UNIT: usize = 128;

/// The start is good.
pub const START_GOOD: u32 = 0;

/// The key isn't sound: a read, a length and a drop of it are refused with 31, a load with 3; an append and an extend too are refused with 31, but of pages they look at the last one alone, and may be accepted.
pub const START_KEY_UNSOUND: u32 = 1;

/// A block of the key shares bytes with another of its own, or with one of a key before it.
pub const START_KEY_SHARES: u32 = 2;

/// The free list names an offset where no such block can stand: taking it is refused with 35, and of pages a run with 42.
pub const START_FREE_STRAYS: u32 = 3;

/// A block of the free list shares bytes with one in use, or with one that this list or one of a smaller class named before; a list that doesn't end comes to such a block.
pub const START_FREE_SHARES: u32 = 4;

/// Freed and held pages are counted, with the first and those past the mark, as more than the body has.
pub const START_COUNTS_EXCEED: u32 = 5;

/// Freed pages are counted as other than their list has: a run is refused with 42.
pub const START_FREED_UNTRUE: u32 = 6;

/// The desk's pages are counted as other than its keys have.
pub const START_HELD_UNTRUE: u32 = 7;

/// The desk holds more pages than its ceiling.
pub const START_PAST_CEILING: u32 = 8;

/// The desk's reserve is above its ceiling.
pub const START_RESERVE_HIGH: u32 = 9;

/// Desks lack more pages of their reserves than are to be had, freed or past the mark.
pub const START_RESERVES_LACK: u32 = 10;

/// Bytes of stack of any call of the book but the loads.
pub const STACK_BOOK: usize = 4096;

/// Bytes of stack of a load, tight or not, and of a ported function that reads out more than 256 numbers.
pub const STACK_LONG: usize = 40_960;
