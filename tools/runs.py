#!/usr/bin/env python3
"""Compares runs out of freed pages with runs at the mark alone, on the plain book: a body is filled by loads of 1 to 40 pages, half of the
keys are dropped at random, and lists of 1 to 40 pages are loaded again until one is refused with 36.

python3 tools/runs.py prints for both rules how many pages of the body are in use then, over so many seeds: in the middle, the least and the
most; and how many loads were accepted behind the drops. Lists are told by their pages alone: a load takes its run, and a drop gives it back.
"""
import random
import sys

sys.dont_write_bytecode = True
from plain_book import LAST_ROOM, PAGE, Book, Refused

BODY, MOST, SEEDS = 2**26, 40, 25
RULES = {"at the mark alone": Book.run_at_mark, "out of freed pages, else at the mark": Book.run}
TOLD = "pages in use, full", "after the drops", "when a load is refused again", "loads accepted behind the drops"


def load(book, key, pages, take):
    """Loads a list of so many pages, and tells whether there was room."""
    try:
        off = take(book, 0, pages)
    except Refused as refused:
        assert refused.args == (36,)
        return False
    book.put(key, [], ("pages", [[off + i * PAGE, LAST_ROOM, []] for i in range(pages)]))
    return True


def fill(book, numbers, keys, take):
    """Loads lists of 1 to 40 pages onto keys until one is refused, and gives the keys that were loaded."""
    loaded = []
    for key in keys:
        if not load(book, key, numbers.randint(1, MOST), take):
            return loaded
        loaded.append(key)
    raise AssertionError("a body holds no more lists than pages")


def history(seed, take):
    """Pages in use before the drops, after them, and where the next load is refused; and how many loads were accepted in between."""
    numbers, keys = random.Random(seed), 2 * BODY // PAGE
    book = Book(BODY, keys)
    first = fill(book, numbers, range(keys // 2), take)
    full = book.held[0]
    for key in numbers.sample(first, len(first) // 2):
        book.drop(key)
    left = book.held[0]
    again = fill(book, numbers, range(keys // 2, keys), take)
    return full, left, book.held[0], len(again)


def main():
    print(f"{BODY // PAGE - 1:,} pages for lists; loads of 1 to {MOST} pages; {SEEDS} seeds: the middle one, the least and the most")
    for name, take in RULES.items():
        columns = [sorted(column) for column in zip(*(history(seed, take) for seed in range(SEEDS)))]
        print(name)
        for what, column in zip(TOLD, columns):
            print(f"    {what:<32} {column[len(column) // 2]:>7,} ({column[0]:,} to {column[-1]:,})")


if __name__ == "__main__":
    main()
