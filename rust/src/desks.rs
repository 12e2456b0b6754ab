//! The desks that share a book.
use crate::limits::{DESKS, NO_CEILING};
use alloc::vec::Vec;

/// The desks that a book is made with: whose each account is, and of each desk the pages that are kept for it and the most that it gets. Where
/// nothing is said, a desk has no reserve and no ceiling. The default is a book without desks.
///
/// ```
/// use ouriscado::{Book, Desks, Refusal};
///
/// let desks = Desks::new(vec![0, 1]).reserve(1, 1); // a page is kept for desk 1
/// let mut book = Book::fresh_with(vec![0; 2 * 4096], vec![0; 2], desks)?; // one page for lists
/// let month: Vec<u64> = (1..=300).collect();
/// assert_eq!(book.load(0, &month), Err(Refusal::IntoReserves));
/// book.load(1, &month)?;
/// # Ok::<(), Refusal>(())
/// ```
#[derive(Clone, Debug, PartialEq, Eq)]
#[must_use = "desks are given to a book that is made"]
pub struct Desks {
    pub(crate) list: Vec<u8>,
    pub(crate) reserve: [u64; DESKS],
    pub(crate) ceiling: [u64; DESKS],
}

impl Default for Desks {
    fn default() -> Desks {
        Desks::new(Vec::new())
    }
}

impl Desks {
    /// Desks by their list, which has for each account the number of its desk, 0 to 15. An empty list is that of a book without desks, whose
    /// accounts are all desk 0's.
    pub fn new(list: impl Into<Vec<u8>>) -> Desks {
        Desks { list: list.into(), reserve: [0; DESKS], ceiling: [NO_CEILING; DESKS] }
    }

    /// Keeps so many pages for a desk.
    ///
    /// # Panics
    ///
    /// Where there is no such desk.
    pub fn reserve(mut self, desk: usize, pages: u64) -> Desks {
        self.reserve[desk] = pages;
        self
    }

    /// Gives a desk so many pages at most.
    ///
    /// # Panics
    ///
    /// Where there is no such desk.
    pub fn ceiling(mut self, desk: usize, pages: u64) -> Desks {
        self.ceiling[desk] = pages;
        self
    }
}
