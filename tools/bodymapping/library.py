"""The proved library, called from Python: the calls of the book, and the functions that take a body apart."""
import ctypes
import subprocess
from ctypes import POINTER, byref, c_size_t, c_uint8, c_uint16, c_uint32, c_uint64, sizeof
from pathlib import Path

PAGE_BYTES = 4096
PAGE_CLASS = 8
WORK_UNIT = 128
KINDS = ["empty", "inline", "slab", "pages"]
LIST_TOO_SHORT = 34
FREE_HEADS, DESKS = 9, 16
COUNT_WORDS = 1 + 3 * DESKS
STATE_WORDS = 1 + FREE_HEADS + COUNT_WORDS
NO_CEILING = 2 ** 64 - 1


class Wrong(Exception):
    """What the user is told."""


class Refused(Exception):
    """A refusal of the library, by its number."""

    def __init__(self, number):
        super().__init__(f"refused {number}")
        self.number = number


class Place:
    """Where a key's list is: its kind, and what that kind has of class, used and place."""

    def __init__(self, kind, class_, used, place):
        self.kind, self.class_, self.used, self.place = KINDS[kind], class_, used, place


class Fault:
    """The first fault that a check met: a key's, a class's or a desk's, which of them, and what is wrong in words."""

    OF_KEYS = {1: "key {} isn't sound", 2: "a block of key {} shares bytes with another in use"}
    OF_CLASSES = {3: "the free list of class {} names an offset where no such block can stand",
                  4: "a freed block of class {} shares bytes with another, in use or freed, or its list doesn't end"}
    OF_COUNTS = {5: "more pages are counted than the body has", 6: "freed pages are counted as other than their list has",
                 7: "the pages of desk {} are counted as other than its keys have", 8: "desk {} holds more pages than its ceiling",
                 9: "the reserve of desk {} is above its ceiling", 10: "desks lack more pages of their reserves than are to be had"}

    def __init__(self, ground, which):
        self.key = which if ground in self.OF_KEYS else None
        self.class_ = which if ground in self.OF_CLASSES else None
        self.text = (self.OF_KEYS | self.OF_CLASSES | self.OF_COUNTS)[ground].format(which)


class Desk:
    """A desk: its number, the pages that it holds, its reserve and its ceiling."""

    def __init__(self, number, held, reserve, ceiling):
        self.number, self.held, self.reserve, self.ceiling = number, held, reserve, ceiling
        self.letter = "ABCDEFGHIJKLMNOP"[number]

    def limited(self):
        return self.reserve != 0 or self.ceiling != NO_CEILING

    def text(self):
        """The desk in words."""
        most = "no ceiling" if self.ceiling == NO_CEILING else f"ceiling {self.ceiling:,}"
        return f"{self.letter}: desk {self.number}, pages {self.held:,}, reserve {self.reserve:,}, {most}"


class Library:
    """libouriscado.a as a shared library."""

    def __init__(self, root):
        found = subprocess.run([root / "tools" / "library"], stdout=subprocess.PIPE, text=True)
        if found.returncode:
            raise Wrong("there is no library to read by")
        self.folder = Path(found.stdout.strip())
        archive = self.folder / "libouriscado.a"
        shared = root / "target" / "bodymap" / "libouriscado.so"
        if not shared.exists() or shared.stat().st_mtime <= archive.stat().st_mtime:
            shared.parent.mkdir(parents=True, exist_ok=True)
            subprocess.run(["gcc", "-shared", "-o", shared, "-Wl,--whole-archive", archive, "-Wl,--no-whole-archive"], check=True)
        self.functions = ctypes.CDLL(str(shared))

    def call(self, name, *arguments):
        """Calls a function that answers a refusal's number, or 0."""
        function = getattr(self.functions, f"ouriscado_{name}")
        function.restype = c_uint32
        number = function(*arguments)
        if number:
            raise Refused(number)

    def slab_bytes(self, class_):
        """The bytes of a block of a class."""
        function = self.functions.ouriscado_slab_bytes
        function.restype = c_uint64
        return function(c_uint8(class_))


def lent(kind, values):
    """An array of numbers that a call may write."""
    return (kind * len(values))(*values)


def without_desks(mark, free, freed=0, held=0):
    """The words of the state of a book without desks, which has so many freed pages, and so many that hold lists."""
    return [mark, *free, freed, held] + [0] * (2 * DESKS - 1) + [NO_CEILING] * DESKS


class Book:
    """A book: a body, its head words, its state of 59 words, and the desk of each key, 0 where none are told."""

    def __init__(self, library, body, heads, state, desks=None):
        self.library = library
        self.body = (c_uint8 * len(body)).from_buffer_copy(body) if body else (c_uint8 * 0)()
        self.heads, self.state = lent(c_uint64, heads), lent(c_uint64, state)
        self.desks = lent(c_uint8, [0] * len(heads) if desks is None else desks)

    @classmethod
    def fresh(cls, library, size, keys, desks=None, reserve=(), ceiling=()):
        """A fresh book over a body of so many bytes. The limits are those of the first desks; other desks have no reserve and no ceiling."""
        book = cls(library, bytes(size), [0] * keys, [0] * STATE_WORDS, desks)
        limits = [[*given] + [no] * (DESKS - len(given)) for given, no in ((reserve, 0), (ceiling, NO_CEILING))]
        library.call("book_fresh", *book.lent_book(), *(lent(c_uint64, limit) for limit in limits))
        return book

    def lent_body(self):
        return self.body, c_size_t(len(self.body))

    def lent_heads(self):
        return self.heads, c_size_t(len(self.heads))

    def lent_desks(self):
        return self.desks, c_size_t(len(self.desks))

    def lent_state(self):
        return self.state, self.free_heads(), self.counts()

    def lent_book(self):
        return *self.lent_body(), *self.lent_heads(), *self.lent_state(), *self.lent_desks()

    def free_heads(self):
        """The state's words behind the mark, as they are lent."""
        return byref(self.state, sizeof(c_uint64))

    def counts(self):
        """The state's words behind the free heads, as they are lent."""
        return byref(self.state, (1 + FREE_HEADS) * sizeof(c_uint64))

    def desk(self, number):
        """A desk, by the counts."""
        at = 2 + FREE_HEADS + number
        return Desk(number, *(self.state[at + part * DESKS] for part in range(3)))

    def has_desks(self):
        """Whether the book is one with desks: a key of another desk than 0, or a limit."""
        return any(self.desks) or any(self.desk(number).limited() for number in range(DESKS))

    def mark(self):
        return self.state[0]

    def load(self, key, numbers, tight=False):
        pages = c_uint64()
        self.library.call("book_load_tight" if tight else "book_load", *self.lent_book(), c_uint64(key), lent(c_uint64, numbers), c_size_t(len(numbers)), byref(pages))
        return pages.value

    def append(self, key, number):
        kind, class_, used, place, rewritten = c_uint8(), c_uint8(), c_uint16(), c_uint64(), c_uint64()
        self.library.call("book_append", *self.lent_book(), c_uint64(key), c_uint64(number),
                          byref(kind), byref(class_), byref(used), byref(place), byref(rewritten))
        return Place(kind.value, class_.value, used.value, place.value), rewritten.value

    def drop(self, key):
        length = c_uint64()
        self.library.call("book_drop", *self.lent_book(), c_uint64(key), byref(length))
        return length.value

    def read(self, key):
        """The key's list, read into a lent list that is long enough, and how many of its numbers are padded. It is read by the core: counts and desks
        don't concern a list."""
        room = 1024
        while True:
            out, length, pages, padded = (c_uint64 * room)(), c_uint64(), c_uint64(), c_uint64()
            try:
                self.library.call("core_read", *self.lent_body(), *self.lent_heads(), c_uint64(self.mark()), c_uint64(key), out, c_size_t(room),
                                  byref(length), byref(pages), byref(padded))
                return list(out[:length.value]), padded.value
            except Refused as refused:
                if refused.number != LIST_TOO_SHORT:
                    raise
                room = self.length(key)

    def length(self, key):
        """How long the key's list is, by the core as a read."""
        length = c_uint64()
        self.library.call("core_length", *self.lent_body(), *self.lent_heads(), c_uint64(self.mark()), c_uint64(key), byref(length))
        return length.value

    def place(self, key):
        """What the key's head word says."""
        kind, class_, used, place = c_uint8(), c_uint8(), c_uint16(), c_uint64()
        self.library.call("unpack8", c_uint64(self.heads[key]), byref(kind), byref(class_), byref(used), byref(place))
        return Place(kind.value, class_.value, used.value, place.value)

    def page(self, off):
        """A page of the body, as it is lent."""
        return (c_uint8 * PAGE_BYTES).from_buffer(self.body, off), c_size_t(PAGE_BYTES)

    def first_page(self, last):
        off = c_uint64()
        self.library.call("sh_page_first_off", *self.page(last), byref(off))
        return off.value

    def next_page(self, at):
        off = c_uint64()
        self.library.call("sh_page_next", *self.page(at), byref(off))
        return off.value

    def page_count(self, at):
        count = c_size_t()
        self.library.call("sh_page_n_fks", *self.page(at), byref(count))
        return count.value

    def check(self):
        """The first fault that a check meets, or none of a good start, and how many units of 16 bytes belong to nobody. A book out of shape is refused."""
        work, ground, which, lost = (c_uint8 * (len(self.body) // WORK_UNIT))(), c_uint32(), c_uint64(), c_uint64()
        self.library.call("book_check", *self.lent_body(), *self.lent_heads(), c_uint64(self.mark()), self.free_heads(), self.counts(), *self.lent_desks(), work, c_size_t(len(work)),
                          byref(ground), byref(which), byref(lost))
        return (Fault(ground.value, which.value) if ground.value else None), lost.value

    def freed(self, class_):
        """The offsets of a class's freed blocks, the first first, and in words why the list doesn't end as it should, or nothing. Blocks are popped
        from a copy of the heads."""
        heads = lent(c_uint64, self.state[1:1 + FREE_HEADS])
        offsets, off = {}, c_uint64()
        while True:
            try:
                self.library.call("pop_free_head", *self.lent_body(), heads, c_uint8(class_), c_uint64(self.mark()), byref(off))
            except Refused as refused:
                return [*offsets], f"ends in refusal {refused.number}"
            if off.value == 0:
                return [*offsets], ""
            if off.value in offsets:
                return [*offsets], f"loops: it comes back to {off.value:,}"
            offsets[off.value] = True
