#!/usr/bin/env python3
"""Writes what the program `book_run` has to write for its lists of calls, computed from the plain book of docs/FORMAT.md and not from the program:

    python3 tools/book_run.py < crates/book_run/stdin > crates/book_run/stdout
"""
import sys
from plain_book import DESKS, MOST_WORD, Refused, made


LOAD, APPEND, READ, DROP, LOAD_TIGHT = range(5)


class Unspelled(Exception):
    """Words that spell no calls."""


def calls_of(words):
    """The calls that some words spell: kind, key, a third word, and a load's numbers."""
    calls = []
    while words:
        if len(words) < 3 or words[0] > LOAD_TIGHT or words[0] == DROP and words[2] != 0:
            raise Unspelled
        kind, key, third, words = *words[:3], words[3:]
        loads = kind in (LOAD, LOAD_TIGHT)
        if loads and third > len(words):
            raise Unspelled
        count = third if loads else 0
        calls.append((kind, key, words[:count] if loads else third))
        words = words[count:]
    return calls


def room(call):
    """The most words that the answer to a call has."""
    return {APPEND: lambda: 7, READ: lambda: 5 + call[2]}.get(call[0], lambda: 3)()


def place(book, key):
    at, ns = book.places[key], book.lists[key]
    if at[0] == "inline":
        return [1, 0, 1, ns[0]]
    if at[0] == "slab":
        return [2, at[1], len(ns), at[2]]
    return [3, 0, 0, at[1][-1][0]]


def answer(book, kind, key, third):
    try:
        if kind in (LOAD, LOAD_TIGHT):
            return [0, LOAD, book.load(key, third, kind == LOAD_TIGHT)]
        if kind == APPEND:
            rewritten = book.append(key, third)
            return [0, APPEND, rewritten] + place(book, key)
        if kind == READ:
            ns, pages, padded = book.read(key, third)
            return [0, READ, pages, padded, len(ns)] + ns
        return [0, DROP, book.drop(key)]
    except Refused as number:
        return [number.args[0]]


def run(size, heads, most, *words):
    try:
        calls = calls_of(list(words))
    except Unspelled:
        return "these words spell no calls"
    if sum(map(room, calls)) > most:
        return "nothing was run: refused 34"
    try:
        book = made(size, heads, [0] * heads, [0] * DESKS, [MOST_WORD] * DESKS)
    except Refused as number:
        return f"nothing was run: refused {number.args[0]}"
    return "".join(["ran:"] + [f" {word}" for call in calls for word in answer(book, *call)])


def main():
    for line in sys.stdin:
        words = line.split()
        print(run(*map(int, words)) if all(map(str.isdigit, words)) else line.rstrip("\n"))


if __name__ == "__main__":
    main()
