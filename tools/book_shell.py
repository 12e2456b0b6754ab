#!/usr/bin/env python3
"""Writes what the program `book_shell` has to write for a script, computed from the plain book of docs/FORMAT.md and not from the program:

    python3 tools/book_shell.py < crates/book_shell/stdin > crates/book_shell/stdout
"""
import re
import sys
from pathlib import Path

sys.dont_write_bytecode = True
sys.path.insert(0, str(Path(__file__).resolve().parent.parent / "host"))
from boundary.refusals import TEXTS
from plain_book import Book, DESKS, MOST_WORD, Refused, lacks, made

LINE_BYTES, NUMBERS, KEYS, BODY_BYTES = 16384, 262144, 65536, 262144
FORMS = {
    "body": "body BYTES",
    "keys": "keys COUNT",
    "desk": "desk KEY DESK",
    "reserve": "reserve DESK PAGES",
    "ceiling": "ceiling DESK PAGES",
    "load": "load KEY NUMBER ...",
    "load-tight": "load-tight KEY NUMBER ...",
    "append": "append KEY NUMBER",
    "extend": "extend KEY NUMBER ...",
    "read": "read KEY, or read KEY ROOM",
    "drop": "drop KEY",
    "places": "places alone",
    "space": "space alone",
    "check": "check alone",
    "help": "help alone",
}
HELP = [
    f"body BYTES: the size of a book, in whole pages of 4096 bytes, from 8192 to {BODY_BYTES}",
    f"keys COUNT: makes a fresh book of so many accounts, which are the keys 0, 1, ...; from 1 to {KEYS}",
    "desk KEY DESK: between body and keys, gives an account to a desk, from 0 to 15; to desk 0 where no line does",
    "reserve DESK PAGES: between body and keys, keeps pages for a desk; none where no line does",
    "ceiling DESK PAGES: between body and keys, the most pages that a desk gets; all where no line does",
    "append KEY NUMBER: records a number, from 1 to 2^62 - 1, above the last that is recorded",
    "extend KEY NUMBER ...: records numbers one after another, up to the first that is refused",
    "load KEY NUMBER ...: records rising numbers in an empty account, with a spare slot for the next",
    "load-tight KEY NUMBER ...: the same in the smallest slab that holds them, for lists that are complete",
    "drop KEY: empties an account",
    "read KEY, or read KEY ROOM: shows an account's numbers, where there is room for all of them",
    "places: shows where each account stands",
    "space: shows the mark and the freed blocks",
    "check: tells whether the book is a good start",
    "help: shows these lines",
    f"a line that begins with # is a comment; the most bytes of a line are {LINE_BYTES}",
]

class Unread(Exception):
    """A line that can't be read, with what to say."""


class Stopped(Exception):
    """A line of which a number was refused, with the lines to say."""


def counted(n, one, many=None):
    return f"{n} {one if n == 1 else many or one + 's'}"


def turned_back_by(refused):
    return f"refused {refused}: {TEXTS[int(str(refused))]}"


def place(book, key):
    at, ns = book.places[key], book.lists[key]
    return {
        "empty": lambda: "empty",
        "inline": lambda: f"inline {ns[0]}",
        "slab": lambda: f"slab class {at[1]}, used {len(ns)}, offset {at[2]}",
        "pages": lambda: f"pages, the last at offset {at[1][-1][0]}",
    }[at[0]]()


def claims(book):
    """The blocks of keys, then those of stacks from the top: whose, how many bytes, and where."""
    for key, at in enumerate(book.places):
        if at[0] == "slab":
            yield f"key {key}", 16 * 2 ** at[1], at[2]
        if at[0] == "pages":
            yield from ((f"key {key}", 4096, page[0]) for page in at[1])
    for c, stack in enumerate(book.stacks):
        yield from ((f"the free list of class {c}", 16 * 2**c, off) for off in reversed(stack))


def numbers(words):
    ns = []
    for word in words:
        if not re.fullmatch("[0-9]+", word):
            raise Unread(f"expected a number, found {word}")
        if int(word) >= 2**64:
            raise Unread(f"expected a number below 2^64, found {word}")
        if len(ns) == NUMBERS:
            raise Unread(f"too many numbers, the most here is {NUMBERS}")
        ns.append(int(word))
    return ns


def limited(n, most, what):
    if n > most:
        raise Unread(f"{what}, the most here is {most}")
    return n


def desk_limited(desk):
    return limited(desk, DESKS - 1, "too high a number for a desk")


class Unmade(Book):
    """What a making that was refused leaves: heads over a body, and a state of zeros."""

    def out_of_shape(self):
        return True


class Shell:
    def __init__(self):
        self.book = Book(0, 0)

    def body(self, size):
        self.book = Book(limited(size, BODY_BYTES, "too many bytes for a body"), 0)
        self.desks, self.reserves, self.ceilings = {}, [0] * DESKS, [MOST_WORD] * DESKS
        return f"body of {size} bytes"

    def before_keys(self):
        if self.book.size == 0:
            raise Unread("no body yet: type body BYTES first")
        if self.book.lists:
            raise Unread("the book is made: desks are told between body BYTES and keys COUNT")

    def desk(self, key, desk):
        limited(key, KEYS - 1, "too high a number for a key")
        desk_limited(desk)
        self.before_keys()
        self.desks[key] = desk
        return f"key {key} is of desk {desk}"

    def reserve(self, desk, pages):
        desk_limited(desk)
        self.before_keys()
        self.reserves[desk] = pages
        return f"desk {desk} has a reserve of {counted(pages, 'page')}"

    def ceiling(self, desk, pages):
        desk_limited(desk)
        self.before_keys()
        self.ceilings[desk] = pages
        return f"desk {desk} has a ceiling of {counted(pages, 'page')}"

    def keys(self, count):
        limited(count, KEYS, "too many keys")
        if self.book.size == 0:
            raise Unread("no body yet: type body BYTES first")
        self.book = Unmade(self.book.size, count)
        self.book = made(self.book.size, count, [self.desks.get(key, 0) for key in range(count)], self.reserves, self.ceilings)
        return f"{counted(count, 'key')} over {counted(self.book.size, 'byte')}: a fresh book"

    def load(self, key, *ns, tight=False):
        pages = self.book.load(key, list(ns), tight)
        return f"loaded: {counted(len(ns), 'number')}, {counted(pages, 'page')}"

    def load_tight(self, key, *ns):
        return self.load(key, *ns, tight=True)

    def append(self, key, n):
        rewritten = self.book.append(key, n)
        return f"appended: {place(self.book, key)}; {counted(rewritten, 'record')} rewritten"

    def extend(self, key, *ns):
        count, refused, moves, rewritten = self.book.extend(key, list(ns))
        told = f"extended: {counted(count, 'number')}; {place(self.book, key)}; {counted(moves, 'move')}, {counted(rewritten, 'record')} rewritten"
        if refused:
            raise Stopped(told, f"the next number, {ns[count]}, is {turned_back_by(refused)}")
        return told

    def read(self, key, room=NUMBERS):
        ns, pages, padded = self.book.read(key, room)
        if not ns:
            return "read: nothing is recorded"
        some = f", {padded} padded" if padded else ""
        return f"read: {counted(len(ns), 'number')}, {counted(pages, 'page')}{some}:" + "".join(f" {n}" for n in ns)

    def drop(self, key):
        return f"dropped: {counted(self.book.drop(key), 'number')}"

    def places(self):
        return [f"key {key}: {place(self.book, key)}" for key in range(len(self.book.lists))]

    def space(self):
        freed = [f"freed, class {c}: {' '.join(map(str, reversed(s)))}" for c, s in enumerate(self.book.stacks) if s]
        mark = self.book.mark if not self.book.out_of_shape() else 0
        return [f"mark {mark}"] + freed

    def check(self):
        """The plain book's keys are sound and its stacks end; that no two blocks share a byte is counted."""
        if self.book.out_of_shape():
            raise Refused(1)
        claimed = set()
        for what, size, off in claims(self.book):
            units = set(range(off, off + size, 16))
            if claimed & units:
                return f"not a good start: {what} has a block that shares bytes with another"
            claimed |= units
        if self.book.to_be_had(len(self.book.stacks[8]), self.book.mark) < lacks(self.book.reserve, self.book.held):
            return "not a good start: fewer pages are to be had than desks lack of their reserves"
        return "a good start"

    def help(self):
        return HELP


def answer(shell, words):
    """The lines of the answer to a line."""
    ns = numbers(words[1:])
    if words[0] not in FORMS:
        raise Unread("expected body, desk, reserve, ceiling, keys, load, load-tight, append, extend, read, drop, places, space, check or help")
    alone = dict.fromkeys(("places", "space", "check", "help"), (0, 0))
    least, most = {"load": (1, NUMBERS), "load-tight": (1, NUMBERS), "extend": (1, NUMBERS), "append": (2, 2), "desk": (2, 2), "reserve": (2, 2), "ceiling": (2, 2), "read": (1, 2), **alone}.get(words[0], (1, 1))
    if not least <= len(ns) <= most:
        raise Unread(f"expected {FORMS[words[0]]}")
    if words[0] == "read" and len(ns) == 2:
        limited(ns[1], NUMBERS, "too much room")
    if words[0] not in ("body", "desk", "reserve", "ceiling", "keys", "help") and not shell.book.lists:
        raise Unread("no book yet: type body BYTES, then keys COUNT")
    told = getattr(shell, words[0].replace("-", "_"))(*ns)
    return told if isinstance(told, list) else [told]


def main():
    shell, turned_back, unread = Shell(), 0, 0
    for number, line in enumerate(sys.stdin.read().split("\n"), 1):
        if len(line) >= LINE_BYTES:
            print(f"line {number}: too many bytes on a line, the most here is {LINE_BYTES}")
            unread += 1
            continue
        words = line.split()
        if not words:
            continue
        if words[0].startswith("#"):
            print(line)
            continue
        print(f"> {line}")
        try:
            for told in answer(shell, words):
                print(told)
        except Refused as refused:
            print(turned_back_by(refused))
            turned_back += 1
        except Stopped as stopped:
            print(*stopped.args, sep="\n")
            turned_back += 1
        except Unread as why:
            print(f"line {number}: {why}")
            unread += 1
    print(f"{counted(turned_back, 'line')} refused, {counted(unread, 'line')} not understood")


if __name__ == "__main__":
    main()
