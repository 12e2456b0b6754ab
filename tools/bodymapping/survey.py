"""What a book has in its body: each block with its owner, as the library reads it."""
from library import DESKS, PAGE_BYTES, PAGE_CLASS, Refused


class Block:
    """Some bytes of the body: a key's slab or page, or a freed block."""

    def __init__(self, off, length, class_, key=None, count=0):
        self.off, self.length, self.class_, self.key, self.count = off, length, class_, key, count


class Key:
    """A key: its kind of place, how many numbers it has, its place in words, its blocks in order, the refusal of a read, or 0, and how many of its
    numbers are padded."""

    def __init__(self, index, kind, count, text, blocks, refusal=0, padded=0):
        self.index, self.kind, self.count, self.text, self.blocks, self.refusal = index, kind, count, text, blocks, refusal
        self.padded = padded


class Survey:
    """A book as it is drawn."""

    def __init__(self, size, mark, keys, freed, broken, fault, lost, desks, letters):
        self.size, self.mark, self.keys, self.freed = size, mark, keys, freed
        self.broken = broken  # classes whose free list doesn't end as it should, with why
        self.fault = fault  # the first that a check meets, or none
        self.lost = lost  # of a good start, how many units of 16 bytes belong to nobody, as the check tells
        self.desks = desks  # of a book with desks, those that have keys, pages or limits
        self.letters = letters  # of such a book, the letter of each key's desk

    def named(self, key):
        """A key's name, with its desk's letter where the book has desks."""
        return f"key {key} {self.letters[key]}" if self.letters else f"key {key}"

    def verdict(self):
        """What the check says, in words."""
        if self.fault:
            return f"check: {self.fault.text}"
        return "check: a good start" + (f", {plural(self.lost, 'unit')} of 16 bytes {'belongs' if self.lost == 1 else 'belong'} to nobody" if self.lost else "")

    def blocks(self):
        """All blocks, by their offsets."""
        return sorted([b for key in self.keys for b in key.blocks] + self.freed, key=lambda b: b.off)

    def unowned(self):
        """The parts below the mark that no block has, as offset and length."""
        parts, at = [], min(PAGE_BYTES, self.size)
        for block in self.blocks():
            if block.off > at:
                parts.append((at, block.off - at))
            at = max(at, block.off + block.length)
        return parts + ([(at, self.mark - at)] if at < self.mark else [])


def plural(count, thing):
    return f"{count:,} {thing}{'' if count == 1 else 's'}"


def padded_some(count):
    """How many numbers are padded, behind a comma, or nothing where none is."""
    return f", {count:,} padded" if count else ""


def chain(book, index, last):
    """The pages of a sound key, the first first."""
    offsets = [book.first_page(last)]
    while offsets[-1] != last:
        offsets.append(book.next_page(offsets[-1]))
    return [Block(off, PAGE_BYTES, PAGE_CLASS, index, book.page_count(off)) for off in offsets]


def told(place):
    """A place in words, without what it takes a look at blocks to tell."""
    if place.kind == "empty":
        return "empty"
    if place.kind == "inline":
        return f"inline number {place.place:,}"
    if place.kind == "slab":
        return f"slab of class {place.class_} at {place.place:,}, {plural(place.used, 'number')}"
    return f"pages, the last at {place.place:,}"


def unsound(book, index, number):
    """A key whose read is refused: what its head word says, if that can be read."""
    try:
        return Key(index, "refused", 0, told(book.place(index)), [], number)
    except Refused as refused:
        return Key(index, "refused", 0, f"{book.heads[index]:016x}, refused with {refused.number}", [], number)


def key_of(book, index):
    """A key as the library reads it: its list decides whether it is sound, its head word where it is."""
    try:
        numbers, padded = book.read(index)
    except Refused as refused:
        return unsound(book, index, refused.number)
    place, blocks = book.place(index), []
    text = told(place)
    if place.kind == "slab":
        blocks = [Block(place.place, book.library.slab_bytes(place.class_), place.class_, index, place.used)]
    if place.kind == "pages":
        blocks = chain(book, index, place.place)
        text = f"{plural(len(blocks), 'page')}, the last at {place.place:,}, {plural(len(numbers), 'number')}"
    return Key(index, place.kind, len(numbers), text + padded_some(padded), blocks, padded=padded)


def survey(book):
    """A whole book."""
    fault, lost = book.check()
    freed, broken = [], {}
    for class_ in range(PAGE_CLASS + 1):
        offsets, why = book.freed(class_)
        freed += [Block(off, book.library.slab_bytes(class_), class_) for off in offsets]
        if why:
            broken[class_] = why
    keys = [key_of(book, index) for index in range(len(book.heads))]
    desks = [book.desk(number) for number in range(DESKS)] if book.has_desks() else []
    letters = [desks[number].letter for number in book.desks] if desks else []
    shown = [desk for desk in desks if desk.held or desk.limited() or desk.number in book.desks]
    return Survey(len(book.body), book.mark(), keys, freed, broken, fault, lost, shown, letters)
