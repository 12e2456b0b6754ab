//! An account book for record numbers, with its calls proved in Rattle: a safe crate over the static library.
//!
//! A [`Book`] keeps, for each account, a rising list of record numbers in one body of bytes. What is proved: in a book that began with
//! [`Book::fresh`], and that nobody writes but its calls, each read gives exactly what was recorded for its account since it was last
//! dropped, or is refused. So an empty list says that nothing is recorded, and a refusal never does. A book from elsewhere, as from a file,
//! is judged whole by [`Book::open`]; opened, the same holds of it, with the lists that it then has as already recorded.
//!
//! ```
//! use ouriscado::{Book, Place, Refusal};
//!
//! let mut book = Book::fresh(vec![0; 65_536], vec![0; 16])?; // a body of 64 KiB, and 16 accounts
//! assert_eq!(book.append(3, 5)?.place, Place::Inline(5));
//! book.append(3, 300)?;
//! assert_eq!(book.read(3)?, [5, 300]);
//! assert!(book.read(4)?.is_empty()); // nothing is recorded for account 4
//!
//! let mut short = [0; 1];
//! assert_eq!(book.read_into(3, &mut short), Err(Refusal::ListTooShort)); // which isn't an empty list
//! # Ok::<(), Refusal>(())
//! ```
//!
//! Several users may share a book as its desks, each with pages that are kept for it and a most that it gets: see [`Desks`].
//!
//! A refused call has changed nothing, and its [`Refusal`] says why. The library allocates nothing; [`Book::read`] allocates its list, and
//! [`Book::open`] and [`Book::check`] a work list while they judge. The proof is of the library's functions; this crate, which lends them
//! its slices, is tested.
//! Modules: [`cookbook`] has snippets for what programs do with a book, [`codec`] the ported functions on single head words, slabs, pages and
//! free lists, [`limits`] the sizes and limits, and [`sys`] the functions as the library defines them.
//!
//! The library, `libouriscado.a`, is for x86-64; the build says which command writes it where it is missing. The crate needs `core` and
//! `alloc` alone.
#![no_std]
#![warn(missing_docs)]
extern crate alloc;

#[cfg(not(all(target_arch = "x86_64", target_os = "linux")))]
compile_error!("libouriscado.a is for x86-64 Linux");

mod book;
pub mod codec;
#[doc = include_str!("../COOKBOOK.md")]
pub mod cookbook {}
mod desks;
mod growing;
pub mod limits;
mod place;
mod refusal;
mod start;
mod state;
#[rustfmt::skip] // made
pub mod sys;
mod walk;

pub use book::{Appended, Book, Extended, Listed};
pub use desks::Desks;
pub use place::Place;
pub use refusal::Refusal;
pub use start::{OpenError, StartError};
pub use state::State;
pub use walk::{Lists, Places};

impl Refusal {
    /// The refusal of a number that the library answered: none of 0, which is no refusal, and [`Refusal::Unknown`] of one without a name.
    ///
    /// ```
    /// use ouriscado::Refusal;
    /// assert_eq!(Refusal::of_number(34), Some(Refusal::ListTooShort));
    /// assert_eq!(Refusal::of_number(0), None);
    /// assert_eq!(Refusal::of_number(999), Some(Refusal::Unknown(999)));
    /// ```
    #[must_use]
    pub fn of_number(number: u32) -> Option<Refusal> {
        match number {
            0 => None,
            _ => Some(Self::ALL.iter().copied().find(|r| r.number() == number).unwrap_or(Refusal::Unknown(number))),
        }
    }
}

/// The text in lower case, and the number.
///
/// ```
/// assert_eq!(ouriscado::Refusal::ListTooShort.to_string(), "the lent list is too short (34)");
/// ```
impl core::fmt::Display for Refusal {
    fn fmt(&self, f: &mut core::fmt::Formatter<'_>) -> core::fmt::Result {
        write!(f, "{} ({})", self.text(), self.number())
    }
}

impl core::error::Error for Refusal {}

/// The example of the package's readme.
#[cfg(doctest)]
#[doc = include_str!("../README.md")]
struct Readme;

/// An answer of the library: values where the number is 0, else its refusal.
#[inline]
fn answer<T>(number: u32, values: T) -> Result<T, Refusal> {
    if number == 0 {
        Ok(values)
    } else {
        Err(refusal_of(number))
    }
}

/// The refusal of a number that isn't 0.
#[cold]
fn refusal_of(number: u32) -> Refusal {
    Refusal::of_number(number).unwrap_or(Refusal::Unknown(number))
}
