//! The source's errors, as numbers of refusals (docs/FORMAT.md, Refusals).
use oracle::error::StoreError;
use oracle::PackError;

/// Whether the numbers that an error speaks of were offered by the caller or were stored.
#[derive(Clone, Copy)]
pub enum Side {
    Offered,
    Stored,
}

/// Each text with its number for what is offered and for what is stored.
const TEXTS: &[(&str, u32, u32)] = &[
    ("scripthash page: buffer must be exactly 4096 bytes", 4, 4),
    ("scripthash page off not 4 KiB aligned", 5, 5),
    ("scripthash page index overflow", 6, 6),
    ("scripthash page: first_off on a non-last page", 7, 7),
    ("scripthash page: extent_n is 0", 8, 8),
    ("scripthash page: extent_base not 4 KiB aligned", 9, 9),
    ("scripthash slab used overflow", 10, 10),
    ("scripthash slab dest short", 11, 11),
    ("scripthash slab payload short", 11, 11),
    ("scripthash fk stream null first fk", 12, 20),
    ("scripthash fk stream flag bit set", 13, 23),
    ("scripthash: create_fk must have bit63 clear", 13, 13),
    ("scripthash page n_fks > capacity", 15, 15),
    ("scripthash page leftover raw-u64; rematerialize", 16, 16),
    ("uleb128 truncated", 17, 17),
    ("uleb128 overflow", 18, 18),
    // "scripthash page stream overrun" is missing: 19 is retired, and the comparison stops where the source says it.
    ("invariant: scripthash fk stream zero delta", 21, 21),
    ("scripthash fk stream delta overflow", 22, 22),
    ("sh pack8: inline cap 1", 24, 24),
    ("sh pack8: fk overflow", 25, 25),
    ("sh pack8: slab field overflow", 26, 26),
    ("sh pack8: last_page overflow", 27, 27),
    ("sh unpack8: slab used inline", 28, 28),
    (oracle::scripthash_layout::INDEX_REFUSE_PAGED_SH, 29, 29),
    ("sh unpack8: null last_page", 30, 30),
    ("invariant: scripthash fk stream not strictly increasing", 32, 32),
    ("invariant: scripthash page append create_fk not strictly increasing", 32, 32),
    ("uleb128 dest short", 33, 33),
    // Also said of more than 65,535 numbers, which is 10: the page writers ask for the count first.
    ("scripthash page pack: entries exceed page capacity", 33, 33),
    // Classes that have no free head: here those above 8, there those above 24.
    ("scripthash free class overflow", 35, 35),
    (oracle::file::PAST_THE_END, 35, 35),
];

/// The number of a text. One that the table lacks is a fault of the table.
fn of_text(text: &str, side: Side) -> u32 {
    let Some((_, offered, stored)) = TEXTS.iter().find(|t| t.0 == text) else {
        panic!("no number is known for the error {text:?}");
    };
    match side {
        Side::Offered => *offered,
        Side::Stored => *stored,
    }
}

/// The number of an error of the store.
pub fn of_store(error: StoreError, side: Side) -> u32 {
    match error {
        StoreError::Corrupt(text) => of_text(text, side),
        StoreError::InvalidFk => 12,
        other => panic!("no number is known for the error {other}"),
    }
}

/// The number of an error of the packing of numbers.
pub fn of_pack(error: PackError) -> u32 {
    of_text(error.0, Side::Stored)
}
