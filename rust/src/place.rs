//! Where an account's list stands.
use crate::codec;
use core::fmt;

/// Where an account's list stands.
#[derive(Clone, Copy, Debug, PartialEq, Eq, Hash)]
pub enum Place {
    /// Nothing is recorded.
    Empty,
    /// One number, which stands in the head word itself.
    Inline(u64),
    /// A slab of the body, of 16 × 2^class bytes.
    Slab {
        /// The slab's class, 0 to 7.
        class: u8,
        /// How many numbers it has.
        used: u16,
        /// Where it begins in the body.
        offset: u64,
    },
    /// A chain of pages.
    Pages {
        /// Where the last page begins in the body.
        last: u64,
    },
}

impl From<codec::Head> for Place {
    fn from(head: codec::Head) -> Place {
        match head {
            codec::Head::Empty => Place::Empty,
            codec::Head::Inline { entry, .. } => Place::Inline(entry),
            codec::Head::Slab { class, used, off } => Place::Slab { class, used, offset: off },
            codec::Head::Extent { last_page } => Place::Pages { last: last_page },
        }
    }
}

/// The place in words, those of the shell.
///
/// ```
/// use ouriscado::Place;
/// assert_eq!(Place::Slab { class: 0, used: 2, offset: 4096 }.to_string(), "slab class 0, used 2, offset 4096");
/// assert_eq!(Place::Pages { last: 8192 }.to_string(), "pages, the last at offset 8192");
/// ```
impl fmt::Display for Place {
    fn fmt(&self, f: &mut fmt::Formatter<'_>) -> fmt::Result {
        match self {
            Place::Empty => f.write_str("empty"),
            Place::Inline(number) => write!(f, "inline {number}"),
            Place::Slab { class, used, offset } => write!(f, "slab class {class}, used {used}, offset {offset}"),
            Place::Pages { last } => write!(f, "pages, the last at offset {last}"),
        }
    }
}
