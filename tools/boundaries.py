#!/usr/bin/env python3
"""Writes what calls at their boundaries answer and leave, computed from the rules of docs/FORMAT.md (rules.py) and not from the code: the files b0, b1, …
of crates/replay/data, which the program `replay` replays, and what it has to write.

    python3 tools/boundaries.py [--check]       --check writes nothing and fails where a file differs
"""
import re
import sys
from itertools import groupby, product
from pathlib import Path

import rules
from rules import EMPTY, EXTENT, INLINE, MOST, PAGE, SLAB, TOP, Refused, form

DATA = Path(__file__).resolve().parent.parent / "crates/replay/data"
ROOM = 65536  # bytes that the program reads of a file


# Each call: its number in the text, the numbers that it tells, and its rule. From F0 on: functions that have no export of their own.
CALLS = {
    "pack8": (3, 1, rules.pack), "pack8_bytes": (4, 1, rules.pack), "unpack8": (5, 4, rules.unpack), "unpack8_bytes": (6, 4, rules.unpack),
    "payload_start": (7, 1, rules.payload_start), "slab_cap": (8, 1, rules.slots), "slab_bytes": (9, 1, rules.size),
    "class_by_bytes": (10, 2, rules.by_bytes), "class_by_count": (11, 2, rules.by_count), "class_with_slack": (12, 2, rules.with_slack),
    "encode_stream": (13, 1, rules.encode_stream), "decode_stream": (14, 1, rules.decode_stream),
    "encode_slab": (15, 1, rules.encode_slab), "decode_slab": (16, 2, rules.decode_slab),
    "cut": (17, 1, rules.cut), "pop": (20, 1, rules.pop), "carve": (21, 0, rules.carve), "split": (22, 1, rules.split_last),
    "link": (23, 2, rules.link), "is_last": (24, 1, rules.is_last), "first_off": (25, 1, rules.first_off), "next": (26, 1, rules.next_off),
    "set_link": (27, 0, rules.set_link), "stream_off": (30, 1, rules.stream_off), "stream_cap": (31, 1, rules.stream_cap),
    "extent": (32, 2, rules.extent), "set_extent": (33, 0, rules.set_extent), "creates": (34, 1, rules.creates),
    "set_creates": (35, 0, rules.set_creates), "n_fks": (36, 1, rules.n_fks), "set_count": (37, 0, rules.set_count),
    "require_delta": (38, 0, rules.require_delta), "init": (39, 0, rules.init), "tail": (40, 2, rules.tail), "last_fk": (41, 1, rules.last_fk),
    "entries": (42, 1, rules.entries), "decode_slice": (43, 2, rules.decode_slice), "try_append": (44, 1, rules.try_append),
    "write_stream": (45, 1, rules.write_stream), "pack_page": (46, 0, rules.pack_page), "pack_extent": (47, 0, rules.pack_extent),
    "scan": (0xF0, 2, rules.scan), "pop_by_value": (0xF1, 1, rules.pop), "carve_by_value": (0xF2, 0, rules.carve),
}
# Setters of a link for LAST and for a next page, which the text numbers apart.
SET_LAST, SET_NEXT = 28, 29


# ---- lines

def numbers(ns):
    """A field of numbers: each with a space, and three or more in equal steps as the first, the step and how many more."""
    out, k = "", 0
    while k < len(ns):
        step, end = (ns[k + 1] - ns[k] if k + 1 < len(ns) else 0) % 2**64, k + 1
        while end < len(ns) and (ns[end] - ns[end - 1]) % 2**64 == step:
            end += 1
        if end - k < 3:
            out, k = out + f"{ns[k]:x} ", k + 1
        else:
            out, k = out + f"{ns[k]:x}:{step:x}:{end - k - 1:x} ", end
    return out


def runs(bs):
    """A field of bytes: how often a byte stands, less one, and the byte; zeros at the end are left out."""
    kept = bytes(bs).rstrip(b"\0")
    counts = [(b, len(list(same))) for b, same in groupby(kept)]
    return "".join(f"{min(256, n - i) - 1:02x}{b:02x}" for b, n in counts for i in range(0, n, 256))


class Text:
    """The lines of one file."""

    def __init__(self):
        self.lines = []

    def call(self, name, given=(), bs=(), ns=(), number=None):
        """Adds the line of a call, and gives buffer and list afterwards."""
        place, tells, rule = CALLS[name]
        given, bs, ns = list(given), list(bs), list(ns)
        before = f"{numbers(given)}|{runs(bs)}|{numbers(ns)}"
        try:
            refusal, told = 0, rule(given, bs, ns)
        except Refused as refused:
            refusal, told = refused.args[0], [0] * tells
        head = f"{place if number is None else number:02x}{refusal:02x}{len(bs):04x}"
        self.lines.append(f"{head}|{before}|{numbers(told)}|{runs(bs)}|{numbers(ns)}")
        return bs, ns

    def calls(self, names, *args):
        for name in names:
            self.call(name, *args)


# ---- classes, head words

def classes(text):
    for n in [*range(259), 2**32 - 1]:
        text.calls(["class_by_count", "class_with_slack"], [n])
    ends = [x for c in range(7) for x in (16 << c, (16 << c) + 1)]
    for n in [0, 1, *ends, 2047, 2048, 2049, MOST]:
        text.call("class_by_bytes", [n])
    for c in [*range(9), 29, 30, 59, 60, 255]:
        text.calls(["slab_cap", "slab_bytes"], [c])


def heads(text):
    slab, used = 1 << 62, 1 << 40
    for w in [
        0, 1, 2**62 - 1,
        slab, slab + used, slab + 2 * used - 1, slab + 2 * used, slab + 3 * used - 1, slab + 65535 * used,
        slab + (63 << 56) + 2 * used, 2 * slab - 1, slab + (2 << 56) + 5 * used + 4096,
        2 * slab, 2 * slab + 1, 3 * slab - 1, 3 * slab, 3 * slab + 1, 4 * slab - 1,
    ]:
        text.calls(["unpack8", "unpack8_bytes"], [w])
    wide = [0, 1, 2**62 - 1, 2**62, MOST]
    values = [[EMPTY, 0, 0, 0]] + [[INLINE, 0, u, n] for n, u in product(wide, [0, 1, 2, 255])]
    values += [[SLAB, c, u, o] for c, u, o in product([0, 63, 64, 255], [0, 1, 2, 65535], [0, 2**40 - 1, 2**40, MOST])]
    for value in values + [[EXTENT, 0, 0, n] for n in wide]:
        text.calls(["pack8", "pack8_bytes"], value)
        try:
            stored = rules.pack(value, [], [])
        except Refused:
            stored = [int("EE" * 8, 16)]
        text.calls(["unpack8", "unpack8_bytes"], stored)
    text.call("payload_start", [24])


# ---- streams and slabs

def streams(text):
    for room, ns in [
        (0, []), (2, []), (0, [1]), (1, [1]), (3, [1]), (1, [127]), (1, [128]), (2, [128]),
        (8, [TOP - 1]), (9, [TOP - 1]),
        (2, [1, 2]), (1, [1, 2]), (4, [5, 300, 301]), (3, [5, 300, 301]), (8, [5, 300, 301]),
        (10, [1, TOP - 1]), (9, [1, TOP - 1]),
        (4, [0]), (4, [0, 5]), (4, [0, TOP]), (16, [TOP]), (16, [MOST]), (16, [5, TOP]), (16, [TOP, 0]), (0, [TOP]),
        (4, [5, 5]), (4, [5, 4]), (4, [5, 0]), (0, [5, 0]), (4, [5, 300, 300]), (16, [5, 4, TOP]),
    ]:
        text.call("encode_slab", [], [0xEE] * (room + 2), ns)
        text.call("encode_stream", [], [0xEE] * room, ns)
    for room, ns in product([0, 1], [[], [0]]):
        text.call("encode_slab", [], [0xEE] * room, ns)
    for count in [65535, 65536]:
        text.call("encode_slab", [], [], [1] * count)
    largest, zeros = [0xFF] * 8 + [0x7F], [0x80] * 9
    for room, count, bs in [
        (2, 0, []), (0, 0, [5]), (2, 1, [1]), (2, 1, [127]), (1, 1, [0x80, 1]), (0, 1, [1]), (2, 2, [5, 1]),
        (1, 2, [5, 1]), (2, 2, [5, 0xA7, 2, 1]),
        (1, 1, largest), (1, 1, zeros + [1]), (1, 1, form(MOST)), (2, 2, [1] + form(TOP - 2)),
        (2, 2, [1] + form(TOP - 1)), (2, 2, [1] + form(MOST - 1)), (2, 2, [1] + form(MOST)),
        (2, 2, largest + form(TOP)), (2, 2, largest + form(TOP + 1)), (2, 2, largest + [1]),
        (2, 1, [0]), (2, 2, [0, 5]), (2, 2, [5, 0]), (2, 1, [0x80, 0]), (2, 2, [5, 0x80, 0]), (0, 2, [5, 0]),
        (4, 3, [5, 1, 0]),
        (2, 1, []), (2, 2, [5]), (2, 1, [0x80]), (2, 2, [5, 0xA7]), (0, 2, [5, 0xA7]), (2, 65535, [5]),
        (2, 1, [0x80] * 10), (2, 1, [0x80] * 11), (2, 1, [0xFF] * 9 + [2]), (2, 2, [5] + [0xFF] * 9 + [2]),
        (2, 1, [0x85, 0]), (2, 2, [0x85, 0, 0x81, 0x80, 0, 0x63]), (1, 1, [0x85] + [0x80] * 8 + [0]),
        (2, 2, [5, 0x81, 0x80, 0]),
    ]:
        text.calls(["scan", "decode_stream"], [count], bs, [9] * room)
    s6 = [3, 0, 5, 0xA7, 2, 1]
    for room, bs in [
        (2, []), (2, [3]), (0, [0, 0]), (2, [0, 0, 5]), (2, [1, 0]), (1, [1, 0, 5]), (0, [1, 0, 5]), (2, [0, 1, 5]),
        (2, [255, 255, 5]),
        (3, s6), (2, s6), (4, s6 + [0]), (2, [2, 0, 5, 0]), (2, [1, 0, 0]), (1, [1, 0] + form(TOP)), (1, [1, 0, 0x85, 0]),
    ]:
        text.call("decode_slab", [], bs, [9] * room)


# ---- cutting, free lists

def cuts(text):
    for step, lengths in [
        (1, [0, 1, 2, 4071, 4072, 4073, 4087, 4088, 4089, 6000, 8159, 8160, 8161, 8192]),
        (128, [1, 2035, 2036, 2037, 2043, 2044, 2045, 4080, 4088, 8192]),
    ]:
        for n in lengths:
            ns = range(step, step * n + 1, step)
            for room in [24, 1]:
                text.call("cut", [room], [], ns)
            for count, first in [(1, 0), (2, 0), (1, 1)]:
                text.call("split", [2, count, first, n], [], ns)
    for given in [(0, 0, 2), (3, 0, 2), (2, 1, 1), (2, 2, 1), (2, 1, 3), (1, 7, 9)]:
        text.call("split", [2, *given], [], [1, 2])


def gaps(text):
    """Every gap up to 4,080 bytes, and a pop of each block that one is carved into, and of each class without one."""
    popped = set()
    for length in range(0, 4081, 16):
        for carve in ["carve", "carve_by_value"]:
            body, free = text.call(carve, [4096, 4096 + length], [0] * 4096, [0] * 9)
        for c in range(8):
            if (c, free[c]) not in popped:
                text.call("pop_by_value", [c, 8192], body, free)
            popped.add((c, free[c]))
    for c, head, mark in [
        (0, 0, 8192), (0, 4080, 8192), (0, 4096, 8192), (0, 4104, 8192), (0, 4096, 4111), (0, 4096, 4112), (0, 8176, 8192), (0, 8192, 8192),
        (0, 8192, 9000), (7, 6144, 8192), (7, 6160, 8192), (8, 4096, 8192), (8, 4096, 8191), (8, 4112, 12288), (9, 4096, 8192),
    ]:
        text.calls(["pop", "pop_by_value"], [c, mark], [0] * 4096, [head] * 9)


# ---- pages

def made(version, count, stream):
    """A page with a version, a count and some bytes for its stream; LAST with first offset 4,096."""
    page = [0] * PAGE
    rules.init([], page, [])
    rules.set_link([True, 4096], page, [])
    rules.set_count([count], page, [])
    page[0] = version
    page[rules.start(page):rules.start(page) + len(stream)] = stream
    assert len(page) == PAGE
    return page


def ones(version, count):
    """A page that holds the numbers from 1 to a count, as far as it has room."""
    return made(version, count, [1] * min(count, PAGE - (24 if version == 2 else 8)))


def set_link(text, last, off, page):
    """Sets a link by both setters that can."""
    text.call("set_link", [int(last), off], page, [], SET_LAST if last else SET_NEXT)
    return text.call("set_link", [int(last), off], page)[0]


def fields(text):
    every = ["n_fks", "require_delta", "stream_off", "stream_cap", "link", "is_last", "first_off", "next", "extent", "creates"]
    for version, count in product([0, 1, 2, 3, 255], [0, 1, 4071, 4072, 4073, 4087, 4088, 4089, 65535]):
        text.calls(every, [], made(version, count, [9, 8, 7]))
    for length in [0, 4095, 4097]:
        page = [7] * length
        text.calls(every, [], page)
        text.call("init", [], page)
        text.call("set_link", [1, 1], page)
        text.call("set_extent", [0, 0], page)
        text.calls(["set_creates", "set_count"], [1], page)


def setters(text):
    top = 2**39 * PAGE
    for last, off in product([True, False], [0, 1, 4095, 4096, 4097, 8192, top - PAGE, top - 1, top, top + 1, 2**64 - PAGE, MOST]):
        page = set_link(text, last, off, [255] * PAGE)
        text.calls(["link", "first_off", "next"], [], page)
    for version in [1, 2]:
        for base, n in [(4096, 1), (4096, 0), (0, 0), (0, 1), (1, 1), (4095, 0), (4097, 1), (8192, 2**32 - 1), (2**64 - PAGE, 2)]:
            page, _ = text.call("set_extent", [base, n], made(version, 1, [9]))
            page, _ = text.call("set_creates", [2**32 - 2], page)
            text.calls(["extent", "creates"], [], page)
    text.call("init", [], [255] * PAGE)


def append(text, page, fk):
    page, _ = text.call("try_append", [fk], page)
    text.calls(["n_fks", "tail", "last_fk"], [], page)


def appends(text):
    for version, room in [(0, 0), (1, 4088), (2, 4072)]:
        for n in [0, 1, room - 3, room - 2, room - 1, room] if room else [0]:
            for step in [1, 127, 128, 16383, 16384]:
                append(text, ones(version, n), n + step)
        for n in [0, room]:
            for fk in [0, n, TOP - 1, TOP, MOST]:
                append(text, ones(version, n), fk)
    for version, count, stream, fk in [
        (1, 2, [5, 0x80, 0x80, 0x80, 0], 6), (1, 2, [5, 0x81, 0x80, 0], 6), (1, 2, [5, 0x81, 0x80, 0], 7),
        (2, 2, [5, 0x81, 0x80, 0], 300), (1, 1, [], 6), (1, 2, [5], 6), (1, 1, [0x80] * 11, 6),
        (1, 1, [0xFF] * 9 + [2], 6), (1, 1, [0x80] * 9 + [1], 6), (1, 2, [5] + [0xFF] * 9 + [1], 6),
        (0, 1, [5], 6), (3, 0, [], 6), (3, 1, [5], 6), (1, 4089, [5], 6), (2, 4073, [5], 6),
    ]:
        append(text, made(version, count, stream), fk)
    append(text, [0] * 4095, 0)


def reads(text):
    def read(page, room):
        text.calls(["entries", "decode_slice"], [], page, [9] * room)

    read(ones(0, 0), 0)
    for version, room in [(1, 4088), (2, 4072)]:
        for n, last, lent in [
            (0, True, 0), (0, False, 2), (1, True, 1), (1, True, 0), (3, False, 4), (room, True, room), (room, False, room),
            (room, True, room - 1), (room - 1, False, room), (room + 1, True, room),
        ]:
            page = ones(version, n)
            if not last:
                rules.set_link([False, 8192], page, [])
            read(page, lent)
    for version, count, stream in [
        (1, 3, [5, 0xA7, 2, 1]), (2, 3, [5, 0xA7, 2, 1]), (1, 2, [0x85, 0, 0x81, 0x80, 0]), (1, 2, [5, 0]), (1, 1, [0]),
        (1, 1, [0x80] * 9 + [1]), (1, 2, [5] + [0xFF] * 9 + [1]), (2, 1, [0xFF] * 9 + [2]), (0, 1, [5]), (255, 0, []),
    ]:
        read(made(version, count, stream), 4)
    read([0] * 4095, 4)


LISTS = [[5, 300, 301], [TOP - 1], [0], [5, TOP], [5, 5], [5, 4, 0]]


def writes(text):
    for version in [0, 1, 2]:
        rows = [range(1, n + 1) for n in [0, 1, 4071, 4072, 4073, 4088, 4089, 65535, 65536]]
        for ns in rows + (LISTS if version else []):
            text.call("write_stream", [], [version] + [7] * (PAGE - 1), ns)
    text.call("write_stream", [], [7] * 4095, [0])


def packs(text):
    def pack(name, given, ns, page=None):
        page, _ = text.call(name, given, page or [7] * PAGE, ns)
        text.calls(["n_fks", "tail", "link", "extent"], [], page)

    for n in [0, 1, 4071, 4072, 4073, 4087, 4088, 4089, 65535, 65536]:
        pack("pack_page", [0], range(1, n + 1))
        pack("pack_extent", [0, 8192, 3], range(1, n + 1))
    for ns in LISTS:
        pack("pack_page", [4096], ns)
        pack("pack_extent", [8192, 4096, 1], ns)
    top = 2**39 * PAGE
    for off in [1, 4097, top - PAGE, top]:
        pack("pack_page", [off], [5])
    for base, n, off in [
        (4096, 1, 0), (4096, 0, 0), (0, 1, 0), (0, 0, 4096), (0, 1, 4096), (4097, 0, 0), (4097, 0, 4096), (4097, 1, 4096),
        (4096, 2**32 - 1, 4096), (4096, 0, 5), (top, 1, 0), (top, 1, 4096),
    ]:
        pack("pack_extent", [off, base, n], [5])
    pack("pack_page", [5], [0])
    pack("pack_extent", [4096, 4096, 0], [0])
    pack("pack_page", [5], [0], [7] * (PAGE + 1))
    pack("pack_extent", [5, 0, 0], [0], [7] * (PAGE + 1))


# ---- files

def files():
    """The text of each file, by its name: subjects in order, as many as fit."""
    texts = []
    for subject in [classes, heads, streams, cuts, gaps, fields, setters, appends, reads, writes, packs]:
        text = Text()
        subject(text)
        part = "".join(f"{line}\n" for line in dict.fromkeys(text.lines)) + f"=boundaries of {subject.__name__}\n"
        if not texts or len(texts[-1]) + len(part) > ROOM:
            texts.append("")
        texts[-1] += part
    return {f"b{k}": text for k, text in enumerate(texts)}


def expected(texts):
    """What `replay` writes of some files: the count of each function's answers, of which none differs."""
    out, count = "", 0
    for line in "".join(texts).splitlines():
        out += f"{line[1:]}: {count} replayed, 0 differ\n" if line[0] == "=" else ""
        count = 0 if line[0] == "=" else count + 1
    return out


def main():
    wanted = {DATA / name: text for name, text in files().items()}
    of_source = [p.read_text() for p in sorted(DATA.iterdir()) if re.fullmatch(r"\d\d", p.name)]
    wanted[DATA.parent / "stdout"] = expected(of_source + list(wanted.values()))
    for path, text in wanted.items():
        if path.name != "stdout" and len(text) > ROOM:
            sys.exit(f"{path.name} has {len(text)} bytes, more than the program reads")
        if "--check" not in sys.argv:
            path.write_text(text)
        elif path.read_text() != text:
            sys.exit(f"{path.name} isn't what the rules give")


if __name__ == "__main__":
    main()
