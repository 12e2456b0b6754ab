#!/usr/bin/env python3
"""Compares loads with a spare slot and tight ones on the plain book: lists of 2 to 200 records, each appended to once after a few more loads.

python3 tools/spare.py prints, for differences of one byte to four and each load, how many of the lists moved, how many records these moves rewrote, and how
many bytes of the body were used then, and by the loads with nothing appended.
"""
import random
import sys

sys.dont_write_bytecode = True
from plain_book import START, Book

LOADS, LEAST, MOST, BEHIND, SEED, BODY = 4000, 2, 200, 5, 6, 2**30


def rising(numbers, count, width):
    """A list of so many records whose differences have just so many bytes."""
    low, high = 128 ** (width - 1) if width > 1 else 1, 128**width - 1
    record, out = 0, []
    for _ in range(count):
        record += numbers.randint(low, high)
        out.append(record)
    return out


def lists(width):
    """The lists that are loaded, each with the record that is appended to it behind."""
    numbers = random.Random(SEED)
    return [rising(numbers, numbers.randint(LEAST, MOST) + 1, width) for _ in range(LOADS)]


def loaded(width, tight):
    """Bytes of the body used by the loads alone."""
    book = Book(BODY, LOADS)
    for key, (*held, _) in enumerate(lists(width)):
        book.load(key, held, tight)
    return book.mark - START


def history(width, tight):
    """Loads of lists, each on a key of its own, and an append to each within a few calls: moves, records rewritten, and bytes of the body used."""
    numbers, book, moves, rewritten, waiting = random.Random(SEED), Book(BODY, LOADS), 0, 0, []
    for key, (*held, last) in enumerate(lists(width)):
        book.load(key, held, tight)
        waiting.append((key, last))
        due = waiting if key == LOADS - 1 else [waiting.pop(numbers.randrange(len(waiting)))] if len(waiting) == BEHIND else []
        for at, record in due:
            written = book.append(at, record)
            moves, rewritten = moves + (written > 0), rewritten + written
    return moves, rewritten, book.mark - START


def main():
    print(f"{LOADS:,} loads of {LEAST} to {MOST} records, each appended to once")
    print(f"{'differences':<12} {'load':<6} {'moves':>7} {'rewritten':>10} {'body bytes':>11} {'loads alone':>12}")
    for width in (1, 2, 3, 4):
        for name, tight in (("spare", False), ("tight", True)):
            moves, rewritten, used = history(width, tight)
            print(f"{f'{width} byte' + 's' * (width > 1):<12} {name:<6} {moves:>7,} {rewritten:>10,} {used:>11,} {loaded(width, tight):>12,}")


if __name__ == "__main__":
    main()
