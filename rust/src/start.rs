//! Why a book from elsewhere isn't opened.
use crate::limits::{
    START_COUNTS_EXCEED, START_FREED_UNTRUE, START_FREE_SHARES, START_FREE_STRAYS, START_GOOD, START_HELD_UNTRUE, START_KEY_SHARES,
    START_KEY_UNSOUND, START_PAST_CEILING, START_RESERVES_LACK, START_RESERVE_HIGH,
};
use crate::{Refusal, State};
use alloc::vec::Vec;
use core::fmt;

/// Why a body, head words and a state are no good start of a book: the first fault that [`Book::check`](crate::Book::check) meets. Accounts are judged first,
/// keys rising, then the lists of freed blocks, classes rising, then the counts of pages, desks rising.
#[derive(Clone, Copy, Debug, PartialEq, Eq, Hash)]
#[non_exhaustive]
pub enum StartError {
    /// They weren't judged: [`Refusal::ShapeBad`], where the body's length, the count of head words or the mark is outside the
    /// [limits](crate::limits), or a count of pages or a reserve above the body's pages; or [`Refusal::DesksBad`], where the list of desks is of
    /// another length than the head words, or names a desk above 15.
    Refused(Refusal),
    /// The account isn't sound: a read and a drop of it are refused with [`Refusal::KeyUnsound`], a load with [`Refusal::KeyInUse`]. An
    /// append too is refused with [`Refusal::KeyUnsound`], but of pages it looks at the last one alone, and may be accepted.
    KeyUnsound {
        /// The account's key.
        key: u64,
    },
    /// A block of the account shares bytes with another of its own, or with one of an account before it.
    KeyShares {
        /// The account's key.
        key: u64,
    },
    /// A list of freed blocks names an offset where no block of its class can stand: taking it is refused with [`Refusal::FreeHeadBad`].
    FreeStrays {
        /// The class, 0 to 8.
        class: u8,
    },
    /// A block of a list of freed ones shares bytes with one in use, or with one that was freed and named before. A list that doesn't end
    /// comes to such a block.
    FreeShares {
        /// The class, 0 to 8.
        class: u8,
    },
    /// Freed and held pages are counted, with the first and those past the mark, as more than the body has.
    CountsExceed,
    /// The count of freed pages isn't the length of their list.
    FreedUntrue,
    /// A desk's count of pages isn't that of its accounts: count or list of desks are another book's, or the head word of an account with pages
    /// is lost.
    HeldUntrue {
        /// The desk, 0 to 15.
        desk: u8,
    },
    /// A desk holds more pages than its ceiling.
    PastCeiling {
        /// The desk, 0 to 15.
        desk: u8,
    },
    /// A desk's reserve is above its ceiling.
    ReserveHigh {
        /// The desk, 0 to 15.
        desk: u8,
    },
    /// Fewer pages are to be had, freed or past the mark, than desks lack of their reserves.
    ReservesLack,
}

/// What a check's ground says: nothing of a good start.
pub(crate) fn judged(ground: u32, which: u64) -> Result<(), StartError> {
    let small = which as u8; // a class or a desk
    Err(match ground {
        START_GOOD => return Ok(()),
        START_KEY_UNSOUND => StartError::KeyUnsound { key: which },
        START_KEY_SHARES => StartError::KeyShares { key: which },
        START_FREE_STRAYS => StartError::FreeStrays { class: small },
        START_FREE_SHARES => StartError::FreeShares { class: small },
        START_COUNTS_EXCEED => StartError::CountsExceed,
        START_FREED_UNTRUE => StartError::FreedUntrue,
        START_HELD_UNTRUE => StartError::HeldUntrue { desk: small },
        START_PAST_CEILING => StartError::PastCeiling { desk: small },
        START_RESERVE_HIGH => StartError::ReserveHigh { desk: small },
        START_RESERVES_LACK => StartError::ReservesLack,
        _ => unreachable!("the library tells no other ground"),
    })
}

/// What is wrong, and where.
///
/// ```
/// assert_eq!(ouriscado::StartError::KeyUnsound { key: 3 }.to_string(), "account 3 isn't sound");
/// ```
impl fmt::Display for StartError {
    fn fmt(&self, f: &mut fmt::Formatter<'_>) -> fmt::Result {
        match self {
            StartError::Refused(refusal) => refusal.fmt(f),
            StartError::KeyUnsound { key } => write!(f, "account {key} isn't sound"),
            StartError::KeyShares { key } => write!(f, "a block of account {key} shares bytes with another in use"),
            StartError::FreeStrays { class } => write!(f, "the freed blocks of class {class} name an offset where none can stand"),
            StartError::FreeShares { class } => write!(f, "a freed block of class {class} shares bytes with another, in use or freed"),
            StartError::CountsExceed => f.write_str("more pages are counted than the body has"),
            StartError::FreedUntrue => f.write_str("freed pages are counted as other than their list has"),
            StartError::HeldUntrue { desk } => write!(f, "the pages of desk {desk} are counted as other than its accounts have"),
            StartError::PastCeiling { desk } => write!(f, "desk {desk} holds more pages than its ceiling"),
            StartError::ReserveHigh { desk } => write!(f, "the reserve of desk {desk} is above its ceiling"),
            StartError::ReservesLack => f.write_str("desks lack more pages of their reserves than are to be had"),
        }
    }
}

impl core::error::Error for StartError {
    fn source(&self) -> Option<&(dyn core::error::Error + 'static)> {
        match self {
            StartError::Refused(refusal) => Some(refusal),
            _ => None,
        }
    }
}

/// A book that [`Book::open`](crate::Book::open) didn't open: why, and what was handed over, as it was.
pub struct OpenError<B, H> {
    /// The first fault.
    pub why: StartError,
    /// The body.
    pub body: B,
    /// The head words.
    pub heads: H,
    /// The state.
    pub state: State,
    /// The list of desks, empty of a book without desks.
    pub desks: Vec<u8>,
}

impl<B, H> From<OpenError<B, H>> for StartError {
    fn from(error: OpenError<B, H>) -> StartError {
        error.why
    }
}

/// The fault alone: a body may be large.
impl<B, H> fmt::Debug for OpenError<B, H> {
    fn fmt(&self, f: &mut fmt::Formatter<'_>) -> fmt::Result {
        f.debug_struct("OpenError").field("why", &self.why).finish_non_exhaustive()
    }
}

impl<B, H> fmt::Display for OpenError<B, H> {
    fn fmt(&self, f: &mut fmt::Formatter<'_>) -> fmt::Result {
        self.why.fmt(f)
    }
}

impl<B, H> core::error::Error for OpenError<B, H> {
    fn source(&self) -> Option<&(dyn core::error::Error + 'static)> {
        self.why.source()
    }
}
