//! Why a call is turned back. Made by host/bindings.py from the exports and host/boundary: change those, and make it again.

/// A refusal, by the number that the library answers.
#[derive(Clone, Copy, Debug, PartialEq, Eq, Hash)]
#[non_exhaustive]
pub enum Refusal {
    /// 1: the book's shape breaks its limits: the body's length, the count of head words or the mark is outside of them; or a count of
    /// pages, or a reserve, is above the body's pages.
    ///
    /// Operator: checks that body, head words and state belong together and are whole; restores all three.
    ShapeBad,
    /// 2: the key is beyond the heads: it isn't below the count of head words.
    ///
    /// Operator: checks the account's index; if that is right, the head words that were lent are not all.
    KeyBeyond,
    /// 3: a load meets a key in use: its head word isn't 0.
    ///
    /// Operator: appends instead, or drops the key first.
    KeyInUse,
    /// 4: a page buffer isn't 4,096 bytes.
    ///
    /// Operator: has the caller corrected.
    PageLength,
    /// 5: a link offset isn't a multiple of 4,096.
    ///
    /// Operator: has the caller corrected.
    LinkUnaligned,
    /// 6: a link index is 2^39 or more: the offset is 2^51 or more.
    ///
    /// Operator: has the caller corrected.
    LinkTooLarge,
    /// 7: the first offset is asked of a page without LAST.
    ///
    /// Operator: asks the last page; if it was that, the page is damaged.
    NotLast,
    /// 8: an extent count is 0: the extent has no page.
    ///
    /// Operator: has the caller corrected; if it was stored, the page is damaged.
    ExtentCountZero,
    /// 9: an extent base is 0 or unaligned to 4,096.
    ///
    /// Operator: has the caller corrected; if it was stored, the page is damaged.
    ExtentBaseBad,
    /// 10: more than 65,535 numbers are offered in one call.
    ///
    /// Operator: loads the first 65,535 and appends the others.
    TooManyOffered,
    /// 11: a slab buffer is under 2 bytes.
    ///
    /// Operator: has the caller corrected.
    SlabTooShort,
    /// 12: the first or only number offered is 0.
    ///
    /// Operator: has the caller corrected: 0 stands for no record.
    OfferedFirstZero,
    /// 13: a number offered has bit 63 set: it is 2^63 or more.
    ///
    /// Operator: has the caller corrected.
    OfferedBit63,
    /// 14: a book is offered 2^62 or more, and below 2^63.
    ///
    /// Operator: has the caller corrected; a book can't hold it.
    OfferedTooLarge,
    /// 15: a page's count exceeds its capacity, the bytes for its stream.
    ///
    /// Operator: the page is damaged: restores it.
    CountAboveCapacity,
    /// 16: a page's version is above 2, or 0 with a count.
    ///
    /// Operator: the page is damaged: restores it.
    VersionBad,
    /// 17: the bytes end before a ULEB128 form does.
    ///
    /// Operator: the bytes are damaged, or fewer were given than there are.
    UlebCutShort,
    /// 18: a ULEB128 form overflows 64 bits, or has more than ten bytes.
    ///
    /// Operator: the bytes are damaged.
    UlebOverflow,
    // 19: retired: a page's stream never passes its capacity, since 17 or 18 comes first; no refusal takes this number.
    /// 20: a stored first number is 0.
    ///
    /// Operator: the bytes are damaged.
    StoredFirstZero,
    /// 21: a stored difference is 0: a number equals the one before it.
    ///
    /// Operator: the bytes are damaged.
    StoredDifferenceZero,
    /// 22: a stored sum passes 2^64 - 1.
    ///
    /// Operator: the bytes are damaged.
    StoredSumOverflow,
    /// 23: a stored number has bit 63 set: it is 2^63 or more.
    ///
    /// Operator: the bytes are damaged.
    StoredBit63,
    /// 24: an inline head has used other than 1.
    ///
    /// Operator: has the caller corrected.
    InlineUsedNotOne,
    /// 25: an inline head exceeds 2^62 - 1.
    ///
    /// Operator: has the caller corrected.
    InlineTooLarge,
    /// 26: a slab head has offset above 2^40 - 1 or class above 63.
    ///
    /// Operator: has the caller corrected.
    SlabFieldTooLarge,
    /// 27: an extent head is 0 or above 2^62 - 1; it is a last page's offset.
    ///
    /// Operator: has the caller corrected.
    ExtentOutOfRange,
    /// 28: a stored slab head has used 0 or 1.
    ///
    /// Operator: the word is damaged.
    SlabUsedTooSmall,
    /// 29: a head word has mode 2.
    ///
    /// Operator: the word is damaged.
    ModeTwo,
    /// 30: a head word of mode 3 has offset 0.
    ///
    /// Operator: the word is damaged.
    ExtentPayloadZero,
    /// 31: the key isn't sound: it is unknown, never taken for empty; or a drop has more pages than the key's desk holds.
    ///
    /// Operator: restores body, head words and state of one moment; finds out who else wrote them, which call was interrupted, or what was
    /// put together from two moments.
    KeyUnsound,
    /// 32: a number offered isn't above the one before, in the list, the key or the page.
    ///
    /// Operator: reads the key: the number may be recorded already.
    OfferedNotRising,
    /// 33: what is to be written doesn't fit its destination.
    ///
    /// Operator: has a larger buffer lent, or fewer numbers offered.
    DoesNotFit,
    /// 34: the lent list is too short: the numbers or ranges to be answered are more than it has room for, or the work list of a check has
    /// fewer bytes than one for each 128 of the body's.
    ///
    /// Operator: asks again with a longer list.
    ListTooShort,
    /// 35: a free head isn't a block of its class before the mark: it is unaligned, or lies outside of 4,096 up to the mark, or is a slab's
    /// in a book and ends past 2^40; or an append wants a page where just one of the free head of pages and their count is 0; or such a
    /// block is pushed, or such a gap carved.
    ///
    /// Operator: the state or a freed block is damaged: restores as for 31; reads go on meanwhile. A slab past 2^40 is no damage: loads all
    /// lists into a fresh book.
    FreeHeadBad,
    /// 36: no room: the block or run would pass the body's end, or a slab 2^40; a block goes there only where none of its class is freed,
    /// and a run where no stretch of so many pages is.
    ///
    /// Operator: lends the same book a longer body, with whole pages behind it, and makes the call again; where the body can't grow, or a
    /// slab would pass 2^40, drops keys that are no longer needed, which frees blocks of their classes.
    NoRoom,
    /// 39: the desks can't be served: their list is of another length than the head words, or names a desk above 15; or a making's reserves
    /// are, summed, more than the pages to be had, or one is above its ceiling.
    ///
    /// Operator: checks the list of desks, which belongs to the head words as their keys do; of a making, its reserves and ceilings.
    DesksBad,
    /// 40: a take of pages would pass its desk's ceiling.
    ///
    /// Operator: drops keys of that desk, or has the book made anew with another ceiling; other desks go on.
    PastCeiling,
    /// 41: a take would leave fewer pages than desks lack of their reserves, as they would be after it.
    ///
    /// Operator: lends the same book a longer body, or drops keys with pages; a desk below its reserve still gets its pages one by one.
    IntoReserves,
    /// 42: the list of freed pages can't be searched: a page of it leaves 4,096 to the mark, is unaligned or stands twice, or they aren't
    /// as many as counted.
    ///
    /// Operator: the state or a freed page is damaged: checks the book, and restores as for 31; reads, appends, drops and loads of other
    /// lists go on meanwhile.
    FreeListBad,
    /// A number that this crate doesn't know: the library is of another version.
    Unknown(u32),
}

impl Refusal {
    /// Every refusal that has a name, in the order of the numbers.
    pub const ALL: &'static [Refusal] = &[
        Refusal::ShapeBad,
        Refusal::KeyBeyond,
        Refusal::KeyInUse,
        Refusal::PageLength,
        Refusal::LinkUnaligned,
        Refusal::LinkTooLarge,
        Refusal::NotLast,
        Refusal::ExtentCountZero,
        Refusal::ExtentBaseBad,
        Refusal::TooManyOffered,
        Refusal::SlabTooShort,
        Refusal::OfferedFirstZero,
        Refusal::OfferedBit63,
        Refusal::OfferedTooLarge,
        Refusal::CountAboveCapacity,
        Refusal::VersionBad,
        Refusal::UlebCutShort,
        Refusal::UlebOverflow,
        Refusal::StoredFirstZero,
        Refusal::StoredDifferenceZero,
        Refusal::StoredSumOverflow,
        Refusal::StoredBit63,
        Refusal::InlineUsedNotOne,
        Refusal::InlineTooLarge,
        Refusal::SlabFieldTooLarge,
        Refusal::ExtentOutOfRange,
        Refusal::SlabUsedTooSmall,
        Refusal::ModeTwo,
        Refusal::ExtentPayloadZero,
        Refusal::KeyUnsound,
        Refusal::OfferedNotRising,
        Refusal::DoesNotFit,
        Refusal::ListTooShort,
        Refusal::FreeHeadBad,
        Refusal::NoRoom,
        Refusal::DesksBad,
        Refusal::PastCeiling,
        Refusal::IntoReserves,
        Refusal::FreeListBad,
    ];

    /// The number that the library answers.
    #[must_use]
    pub const fn number(self) -> u32 {
        match self {
            Refusal::ShapeBad => 1,
            Refusal::KeyBeyond => 2,
            Refusal::KeyInUse => 3,
            Refusal::PageLength => 4,
            Refusal::LinkUnaligned => 5,
            Refusal::LinkTooLarge => 6,
            Refusal::NotLast => 7,
            Refusal::ExtentCountZero => 8,
            Refusal::ExtentBaseBad => 9,
            Refusal::TooManyOffered => 10,
            Refusal::SlabTooShort => 11,
            Refusal::OfferedFirstZero => 12,
            Refusal::OfferedBit63 => 13,
            Refusal::OfferedTooLarge => 14,
            Refusal::CountAboveCapacity => 15,
            Refusal::VersionBad => 16,
            Refusal::UlebCutShort => 17,
            Refusal::UlebOverflow => 18,
            Refusal::StoredFirstZero => 20,
            Refusal::StoredDifferenceZero => 21,
            Refusal::StoredSumOverflow => 22,
            Refusal::StoredBit63 => 23,
            Refusal::InlineUsedNotOne => 24,
            Refusal::InlineTooLarge => 25,
            Refusal::SlabFieldTooLarge => 26,
            Refusal::ExtentOutOfRange => 27,
            Refusal::SlabUsedTooSmall => 28,
            Refusal::ModeTwo => 29,
            Refusal::ExtentPayloadZero => 30,
            Refusal::KeyUnsound => 31,
            Refusal::OfferedNotRising => 32,
            Refusal::DoesNotFit => 33,
            Refusal::ListTooShort => 34,
            Refusal::FreeHeadBad => 35,
            Refusal::NoRoom => 36,
            Refusal::DesksBad => 39,
            Refusal::PastCeiling => 40,
            Refusal::IntoReserves => 41,
            Refusal::FreeListBad => 42,
            Refusal::Unknown(number) => number,
        }
    }

    /// What the refusal says.
    #[must_use]
    pub const fn text(self) -> &'static str {
        match self {
            Refusal::ShapeBad => "the book's shape breaks its limits",
            Refusal::KeyBeyond => "the key is beyond the heads",
            Refusal::KeyInUse => "a load meets a key in use",
            Refusal::PageLength => "a page buffer isn't 4,096 bytes",
            Refusal::LinkUnaligned => "a link offset isn't a multiple of 4,096",
            Refusal::LinkTooLarge => "a link index is 2^39 or more",
            Refusal::NotLast => "the first offset is asked of a page without LAST",
            Refusal::ExtentCountZero => "an extent count is 0",
            Refusal::ExtentBaseBad => "an extent base is 0 or unaligned",
            Refusal::TooManyOffered => "more than 65,535 numbers are offered",
            Refusal::SlabTooShort => "a slab buffer is under 2 bytes",
            Refusal::OfferedFirstZero => "the first or only number offered is 0",
            Refusal::OfferedBit63 => "a number offered has bit 63 set",
            Refusal::OfferedTooLarge => "a book is offered 2^62 or more",
            Refusal::CountAboveCapacity => "a page's count exceeds its capacity",
            Refusal::VersionBad => "a page's version is above 2, or 0 with a count",
            Refusal::UlebCutShort => "the bytes end before a ULEB128 form does",
            Refusal::UlebOverflow => "a ULEB128 form overflows 64 bits",
            Refusal::StoredFirstZero => "a stored first number is 0",
            Refusal::StoredDifferenceZero => "a stored difference is 0",
            Refusal::StoredSumOverflow => "a stored sum passes 2^64 - 1",
            Refusal::StoredBit63 => "a stored number has bit 63 set",
            Refusal::InlineUsedNotOne => "an inline head has used other than 1",
            Refusal::InlineTooLarge => "an inline head exceeds 2^62 - 1",
            Refusal::SlabFieldTooLarge => "a slab head has offset above 2^40 - 1 or class above 63",
            Refusal::ExtentOutOfRange => "an extent head is 0 or above 2^62 - 1",
            Refusal::SlabUsedTooSmall => "a stored slab head has used 0 or 1",
            Refusal::ModeTwo => "a head word has mode 2",
            Refusal::ExtentPayloadZero => "a head word of mode 3 has offset 0",
            Refusal::KeyUnsound => "the key isn't sound: it is unknown, never taken for empty",
            Refusal::OfferedNotRising => "a number offered isn't above the one before",
            Refusal::DoesNotFit => "what is to be written doesn't fit its destination",
            Refusal::ListTooShort => "the lent list is too short",
            Refusal::FreeHeadBad => "a free head isn't a block of its class before the mark",
            Refusal::NoRoom => "no room: the block or run would pass the body's end",
            Refusal::DesksBad => "the desks can't be served",
            Refusal::PastCeiling => "a take of pages would pass its desk's ceiling",
            Refusal::IntoReserves => "a take would leave fewer pages than desks lack of their reserves",
            Refusal::FreeListBad => "the list of freed pages can't be searched",
            Refusal::Unknown(_) => "a refusal that this version doesn't know",
        }
    }
}
