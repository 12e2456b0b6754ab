"""The refusals: the one table of their words. The headers, the Rust crate, docs/FORMAT.md and the auditor's page take them from here, and the shell's
words are held to it (host/bindings.py).

Each has its number; its name, as crate error has it, in capitals; its text, which is what a program shows; what is added to the text where there is room, with the
mark before it; who meets it; and what an operator does. One that has no name is out of use. Texts begin in lower case and have no full stop.
"""

CORRECTED = "has the caller corrected"
STORED_TOO = "has the caller corrected; if it was stored, the page is damaged"
DAMAGED_PAGE = "the page is damaged: restores it"
DAMAGED_BYTES = "the bytes are damaged"
DAMAGED_WORD = "the word is damaged"
LINKS = "`sh_page_set_next`, `sh_page_set_last`, `sh_page_write_packed`, packing a page"
EXTENTS = "`sh_page_extent`, `sh_page_set_extent`, packing a last page"
FORMS = "`read_uleb128`, readers"
PACKING = "`pack8`, `pack8_bytes`"
UNPACKING = "`unpack8`, `unpack8_bytes`"
OFFERING = "load, append; writers, `sh_page_try_append`"

REFUSALS = [
    (1, "SHAPE_BAD", "the book's shape breaks its limits", ": the body's length, the count of head words or the mark is outside of them; or a count of pages, or a reserve, is above the body's pages",
     "every call of the book; making it fresh looks at the lengths and the reserves only",
     "checks that body, head words and state belong together and are whole; restores all three"),
    (2, "KEY_BEYOND", "the key is beyond the heads", ": it isn't below the count of head words",
     "load, append, extend, read, length, drop", "checks the account's index; if that is right, the head words that were lent are not all"),
    (3, "KEY_IN_USE", "a load meets a key in use", ": its head word isn't 0", "load", "appends instead, or drops the key first"),
    (4, "PAGE_LENGTH", "a page buffer isn't 4,096 bytes", "", "functions on pages", CORRECTED),
    (5, "LINK_UNALIGNED", "a link offset isn't a multiple of 4,096", "", LINKS, CORRECTED),
    (6, "LINK_TOO_LARGE", "a link index is 2^39 or more", ": the offset is 2^51 or more", LINKS, CORRECTED),
    (7, "NOT_LAST", "the first offset is asked of a page without LAST", "",
     "`sh_page_first_off`", "asks the last page; if it was that, the page is damaged"),
    (8, "EXTENT_COUNT_ZERO", "an extent count is 0", ": the extent has no page", EXTENTS, STORED_TOO),
    (9, "EXTENT_BASE_BAD", "an extent base is 0 or unaligned", " to 4,096", EXTENTS, STORED_TOO),
    (10, "TOO_MANY_OFFERED", "more than 65,535 numbers are offered", " in one call",
     "load; writers of slabs and pages", "loads the first 65,535 and appends the others"),
    (11, "SLAB_TOO_SHORT", "a slab buffer is under 2 bytes", "", "`encode_slab_payload_into`, `decode_slab_payload_into`", CORRECTED),
    (12, "OFFERED_FIRST_ZERO", "the first or only number offered is 0", "", OFFERING, "has the caller corrected: 0 stands for no record"),
    (13, "OFFERED_BIT_63", "a number offered has bit 63 set", ": it is 2^63 or more", OFFERING, CORRECTED),
    (14, "OFFERED_TOO_LARGE", "a book is offered 2^62 or more", ", and below 2^63", "load, append", "has the caller corrected; a book can't hold it"),
    (15, "COUNT_ABOVE_CAPACITY", "a page's count exceeds its capacity", ", the bytes for its stream",
     "`sh_page_n_fks`, `sh_page_require_delta`, readers of pages", DAMAGED_PAGE),
    (16, "VERSION_BAD", "a page's version is above 2, or 0 with a count", "", "`sh_page_require_delta`, readers of pages", DAMAGED_PAGE),
    (17, "ULEB_CUT_SHORT", "the bytes end before a ULEB128 form does", "", FORMS, "the bytes are damaged, or fewer were given than there are"),
    (18, "ULEB_OVERFLOW", "a ULEB128 form overflows 64 bits", ", or has more than ten bytes", FORMS, DAMAGED_BYTES),
    (19, None, "retired: a page's stream never passes its capacity, since 17 or 18 comes first; no refusal takes this number", "", "nobody", "–"),
    (20, "STORED_FIRST_ZERO", "a stored first number is 0", "", "readers", DAMAGED_BYTES),
    (21, "STORED_DIFFERENCE_ZERO", "a stored difference is 0", ": a number equals the one before it", "readers", DAMAGED_BYTES),
    (22, "STORED_SUM_OVERFLOW", "a stored sum passes 2^64 - 1", "", "readers", DAMAGED_BYTES),
    (23, "STORED_BIT_63", "a stored number has bit 63 set", ": it is 2^63 or more", "readers", DAMAGED_BYTES),
    (24, "INLINE_USED_NOT_ONE", "an inline head has used other than 1", "", PACKING, CORRECTED),
    (25, "INLINE_TOO_LARGE", "an inline head exceeds 2^62 - 1", "", PACKING, CORRECTED),
    (26, "SLAB_FIELD_TOO_LARGE", "a slab head has offset above 2^40 - 1 or class above 63", "", PACKING, CORRECTED),
    (27, "EXTENT_OUT_OF_RANGE", "an extent head is 0 or above 2^62 - 1", "; it is a last page's offset", PACKING, CORRECTED),
    (28, "SLAB_USED_TOO_SMALL", "a stored slab head has used 0 or 1", "", UNPACKING, DAMAGED_WORD),
    (29, "MODE_TWO", "a head word has mode 2", "", UNPACKING, DAMAGED_WORD),
    (30, "EXTENT_PAYLOAD_ZERO", "a head word of mode 3 has offset 0", "", UNPACKING, DAMAGED_WORD),
    (31, "KEY_UNSOUND", "the key isn't sound: it is unknown, never taken for empty", "; or a drop has more pages than the key's desk holds", "append, extend, read, length, drop",
     "restores body, head words and state of one moment; finds out who else wrote them, which call was interrupted, or what was put together from two "
     "moments"),
    (32, "OFFERED_NOT_RISING", "a number offered isn't above the one before", ", in the list, the key or the page", OFFERING,
     "reads the key: the number may be recorded already"),
    (33, "DOES_NOT_FIT", "what is to be written doesn't fit its destination", "", "`write_uleb128_into`, writers",
     "has a larger buffer lent, or fewer numbers offered"),
    (34, "LIST_TOO_SHORT", "the lent list is too short",
     ": the numbers or ranges to be answered are more than it has room for, or the work list of a check has fewer bytes than one for each 128 of the body's",
     "read, check; readers into a lent list, `sh_page_chunk_ranges`, `split_last_chunk_for_extent`", "asks again with a longer list"),
    (35, "FREE_HEAD_BAD", "a free head isn't a block of its class before the mark",
     ": it is unaligned, or lies outside of 4,096 up to the mark, or is a slab's in a book and ends past 2^40; or an append wants a page where just one of the free head of pages and their count is 0; or such a block is "
     "pushed, or such a gap carved",
     "load, append; `push_free_head`, `pop_free_head`, `carve_gap_into_freelist`",
     "the state or a freed block is damaged: restores as for 31; reads go on meanwhile. A slab past 2^40 is no damage: loads all lists into a fresh book"),
    (36, "NO_ROOM", "no room: the block or run would pass the body's end", ", or a slab 2^40; a block goes there only where none of its class is freed, and a run where no stretch of so many pages is",
     "load, append",
     "lends the same book a longer body, with whole pages behind it, and makes the call again; where the body can't grow, or a slab would pass 2^40, drops "
     "keys that are no longer needed, which frees blocks of their classes"),
    (39, "DESKS_BAD", "the desks can't be served",
     ": their list is of another length than the head words, or names a desk above 15; or a making's reserves are, summed, more than the pages to be had, or "
     "one is above its ceiling",
     "every call of the book", "checks the list of desks, which belongs to the head words as their keys do; of a making, its reserves and ceilings"),
    (40, "PAST_CEILING", "a take of pages would pass its desk's ceiling", "", "load, append",
     "drops keys of that desk, or has the book made anew with another ceiling; other desks go on"),
    (41, "INTO_RESERVES", "a take would leave fewer pages than desks lack of their reserves", ", as they would be after it", "load, append",
     "lends the same book a longer body, or drops keys with pages; a desk below its reserve still gets its pages one by one"),
    (42, "FREE_LIST_BAD", "the list of freed pages can't be searched",
     ": a page of it leaves 4,096 to the mark, is unaligned or stands twice, or they aren't as many as counted",
     "load of a list that goes to pages",
     "the state or a freed page is damaged: checks the book, and restores as for 31; reads, appends, drops and loads of other lists go on meanwhile"),
]


class Refusal:
    """A refusal, as the table has it; its cause is its text with what is added."""

    def __init__(self, number, name, text, more, who, operator):
        self.number, self.name, self.text, self.cause, self.who, self.operator = number, name, text, text + more, who, operator


ALL = [Refusal(*row) for row in REFUSALS]
TEXTS = {r.number: r.text for r in ALL if r.name}


def rows():
    """The table's rows for docs/FORMAT.md."""
    return [f"| {r.number} | {r.cause} | {r.who} | {r.operator} |" for r in ALL]
