"""Rules of docs/FORMAT.md that the calls below the book (rules.py) and the plain book (plain_book.py) share: lengths of forms, classes, cutting and gaps."""
PAGE = 4096
# The bytes that a page has for its stream, and those that a last page has.
PAGE_ROOM, LAST_ROOM = PAGE - 8, PAGE - 24


class Refused(Exception):
    """A refusal, by its number."""


def form_len(n):
    """The bytes of a number's shortest form, seven bits in each."""
    return max(1, -(-n.bit_length() // 7))


# ---- classes of slabs

def slab_bytes(c):
    return 16 << c


def slab_slots(c):
    return 4 << c


def smallest(n, held):
    """The smallest class that holds n, none where no class does."""
    return next((c for c in range(8) if n <= held(c)), None)


def by_count(n):
    return smallest(n, slab_slots) if 2 <= n <= 256 else None


def by_bytes(n):
    return smallest(n, slab_bytes) if n else None


def with_slack(n):
    spare = by_count(n + 1)
    return by_count(n) if spare is None else spare


# ---- cutting

def greedy(ns, start, room):
    """The ranges of the greedy cutting of any numbers, the first of which starts at an index of a longer list."""
    ranges, begin, used = [], 0, 0
    for i, n in enumerate(ns):
        more = form_len(max(n - ns[i - 1], 0)) if i > begin else form_len(n)
        if i > begin and used + more > room:
            ranges.append((start + begin, start + i))
            begin, used, more = i, 0, form_len(n)
        used += more
    return ranges + [(start + begin, start + len(ns))] if len(ns) else ranges


def recut_last(ns, ranges):
    """Some ranges with the last cut again for a last page, unless it is empty or leaves the list."""
    if not ranges or not ranges[-1][0] < ranges[-1][1] <= len(ns):
        return ranges
    start, end = ranges[-1]
    return ranges[:-1] + greedy(ns[start:end], start, LAST_ROOM)


def page_ranges(ns):
    """The cutting of numbers into pages, by its ranges."""
    return recut_last(ns, greedy(ns, 0, PAGE_ROOM))


# ---- gaps

def gap_blocks(off, end):
    """The blocks that a gap is carved into, from its low end on: each its class and its offset."""
    blocks = []
    while fitting := [c for c in range(8) if slab_bytes(c) <= end - off]:
        blocks.append((fitting[-1], off))
        off += slab_bytes(fitting[-1])
    return blocks
