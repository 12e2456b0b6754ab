"""The books that the documents show, made by the library's own calls."""
from library import PAGE_BYTES, Book, Refused

KEYS = 12


class Numbers:
    """A fixed sequence of numbers that look random (xorshift)."""

    def __init__(self, seed):
        self.word = seed

    def below(self, bound):
        for shift in (13, -7, 17):
            self.word ^= (self.word << shift if shift > 0 else self.word >> -shift) % 2 ** 64
        return self.word % bound


def busy_day(library):
    """Twelve accounts over a body of 24 pages: two loads, some 30,000 deposits, most of them of few accounts, and two accounts closed on the way."""
    book, numbers = Book.fresh(library, 24 * PAGE_BYTES, KEYS), Numbers(88172645463325252)
    book.load(0, [1000 + 3 * k for k in range(6000)])
    book.load(5, [20000 + 200 * k for k in range(60)])
    record = 40000
    for turn in range(30000):
        record += 1 + numbers.below(40)
        key = min(numbers.below(KEYS) for _ in range(5))
        if key < 9 or turn % 40 == 0:
            book.append(key, record)
        if turn in (9000, 22000):
            book.drop(1 if turn == 9000 else 3)
    book.append(11, record + 1)
    return book


def damaged_day(library):
    """The same book with a byte changed in the slab and in the last page that stand at the highest offsets: the first number becomes 0, a count changes."""
    book = busy_day(library)
    slabs = [p.place for p in map(book.place, range(KEYS)) if p.kind == "slab"]
    pages = [p.place for p in map(book.place, range(KEYS)) if p.kind == "pages"]
    book.body[max(slabs) + 2] = 0
    book.body[max(pages) + 1] ^= 1
    return book


def life(library):
    """One key from empty to dropped, with a second one beside it."""
    book = Book.fresh(library, 4 * PAGE_BYTES, 2)
    book.append(1, 7)
    book.append(1, 400)
    for title, until in (("empty", 0), ("inline", 1), ("slab", 40), ("pages", 260), ("dropped", None)):
        if until is None:
            book.drop(0)
        else:
            held = len(book.read(0)[0])
            for k in range(held, until):
                book.append(0, 100 + 50 * k)
        yield title, Book(library, bytes(book.body), list(book.heads), list(book.state))
