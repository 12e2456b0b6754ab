"""The calls below the book by the rules of docs/FORMAT.md, apart from the code.

A call takes the numbers given, a buffer and a list, which it changes, and gives the numbers that it tells; where it is refused it raises
Refused and has changed nothing.
"""
import sizes
from sizes import PAGE, Refused, gap_blocks, slab_bytes

TOP, MOST = 2**63, 2**64 - 1


def check(bad, number):
    if bad:
        raise Refused(number)


# ---- ULEB128 and streams

def form(n):
    return [n] if n < 128 else [128 + n % 128] + form(n // 128)


def read_form(bs):
    """The value of the form at the start of some bytes, and its length."""
    value = 0
    for i, b in enumerate(bs):
        check(i > 9 or (i == 9 and b % 128 > 1), 18)
        value += b % 128 << 7 * i
        if b < 128:
            return value, i + 1
    raise Refused(17)


def scan_stream(bs, count):
    """The numbers of a stream, and the bytes that it takes."""
    numbers, taken, last = [], 0, 0
    for _ in range(count):
        d, n = read_form(bs[taken:taken + 11])
        check(d == 0, 21 if numbers else 20)
        check(last + d > MOST, 22)
        check(last + d >= TOP, 23)
        last, taken = last + d, taken + n
        numbers.append(last)
    return numbers, taken


def padded(bs, count):
    """How many numbers of a stream that can be read are in a longer form than the shortest. The calls below don't tell it: the source doesn't."""
    longer, taken = 0, 0
    for _ in range(count):
        value, length = read_form(bs[taken:taken + 11])
        longer, taken = longer + (length > len(form(value))), taken + length
    return longer


def stream(ns, room):
    """The bytes of a list's stream, at most so many."""
    last, out = 0, []
    for k, n in enumerate(ns):
        check(k == 0 and n == 0, 12)
        check(n >= TOP, 13)
        check(n <= last, 32)
        out += form(n - last)
        last = n
    check(len(out) > room, 33)
    return out


def lend(numbers, lent):
    """Puts numbers to the start of a lent list."""
    check(len(numbers) > len(lent), 34)
    lent[:len(numbers)] = numbers


def encode_stream(given, dst, ns):
    out = stream(ns, len(dst))
    dst[:len(out)] = out
    return [len(out)]


def scan(given, bs, lent):
    numbers, taken = scan_stream(bs, given[0])
    return [taken, numbers[-1] if numbers else 0]


def decode_stream(given, bs, lent):
    numbers, taken = scan_stream(bs, given[0])
    lend(numbers, lent)
    return [taken]


# ---- slabs

def encode_slab(given, dst, ns):
    check(len(ns) > 65535, 10)
    check(len(dst) < 2, 11)
    out = [len(ns) % 256, len(ns) // 256] + stream(ns, len(dst) - 2)
    dst[:len(out)] = out
    return [len(out)]


def decode_slab(given, bs, lent):
    check(len(bs) < 2, 11)
    used = bs[0] + 256 * bs[1]
    numbers, taken = scan_stream(bs[2:], used)
    lend(numbers, lent)
    return [used, taken + 2]


# ---- classes: whether there is one, and which, 0 where there is none

def told(c):
    return [0, 0] if c is None else [1, c]


def by_bytes(given, bs, ns):
    return told(sizes.by_bytes(given[0]))


def by_count(given, bs, ns):
    return told(sizes.by_count(given[0]))


def with_slack(given, bs, ns):
    return told(sizes.with_slack(given[0]))


def slots(given, bs, ns):
    return [sizes.slab_slots(given[0]) if sizes.slab_slots(given[0]) < 2**32 else 0]


def size(given, bs, ns):
    return [slab_bytes(given[0]) if slab_bytes(given[0]) < 2**64 else 0]


# ---- head words: a head value is kind, class, used and place

EMPTY, INLINE, SLAB, EXTENT = range(4)


def pack(given, bs, ns):
    kind, clss, used, place = given
    if kind == EMPTY:
        return [0]
    if kind == INLINE:
        check(used != 1, 24)
        check(place > 2**62 - 1, 25)
        return [place]
    if kind == SLAB:
        check(place > 2**40 - 1 or clss > 63, 26)
        return [1 << 62 | clss << 56 | used << 40 | place]
    check(place == 0 or place > 2**62 - 1, 27)
    return [3 << 62 | place]


def unpack(given, bs, ns):
    word = given[0]
    mode, used = word >> 62, word >> 40 & 65535
    if word == 0:
        return [EMPTY, 0, 0, 0]
    if mode == 0:
        return [INLINE, 0, 1, word]
    if mode == 1:
        check(used < 2, 28)
        return [SLAB, word >> 56 & 63, used, word & 2**40 - 1]
    check(mode == 2, 29)
    check(word & 2**62 - 1 == 0, 30)
    return [EXTENT, 0, 0, word & 2**62 - 1]


def payload_start(given, bs, ns):
    return [4096]


# ---- cutting: the ranges of the parts stand over the first numbers of the list, as far as it reaches

def told_ranges(ranges, first, room, ns):
    """Tells how many ranges there are and where the last ends, and puts those from one on over the list."""
    check(len(ranges) > room, 34)
    new = [n for pair in ranges[first:] for n in pair][:len(ns)]
    ns[:len(new)] = new
    return [len(ranges)] + [end for _, end in ranges[-1:]]


def cut(given, bs, ns):
    return told_ranges(sizes.page_ranges(ns), 0, given[0], ns)


def split_last(given, bs, ns):
    room, count, start, end = given
    check(count > room, 34)
    return told_ranges(sizes.recut_last(ns, [(start, end)] * count), max(count - 1, 0), room, ns)


# ---- free lists: a buffer is a body from 4,096 on, the list its nine free heads

def carve(given, body, heads):
    for c, off in gap_blocks(*given):
        put(body, off - 4096, 8, heads[c])
        heads[c] = off
    return []


def pop(given, body, heads):
    c, mark = given
    if c > 8 or heads[c] == 0:
        return [0]
    off, (length, unit) = heads[c], (PAGE, PAGE) if c == 8 else (slab_bytes(c), 16)
    check(off % unit or off < 4096 or off + length > min(mark, 4096 + len(body)), 35)
    heads[c] = at(body, off - 4096, 8)
    return [off]


# ---- fields of pages

def at(page, o, k):
    return sum(b << 8 * i for i, b in enumerate(page[o:o + k]))


def put(page, o, k, n):
    page[o:o + k] = [n >> 8 * i & 255 for i in range(k)]


def whole(page):
    check(len(page) != PAGE, 4)


def start(page):
    return 24 if page[0] == 2 else 8


def stream_off(given, page, ns):
    whole(page)
    return [start(page)]


def stream_cap(given, page, ns):
    whole(page)
    return [PAGE - start(page)]


def n_fks(given, page, ns):
    whole(page)
    check(at(page, 1, 2) > PAGE - start(page), 15)
    return [at(page, 1, 2)]


def require_delta(given, page, ns):
    [n] = n_fks(given, page, ns)
    check(page[0] not in (1, 2) and (page[0] != 0 or n != 0), 16)
    return []


def link(given, page, ns):
    whole(page)
    return [at(page, 3, 5) % 2, at(page, 3, 5) // 2 * PAGE]


def is_last(given, page, ns):
    return link(given, page, ns)[:1]


def first_off(given, page, ns):
    last, off = link(given, page, ns)
    check(not last, 7)
    return [off]


def next_off(given, page, ns):
    last, off = link(given, page, ns)
    return [0 if last else off]


def good_extent(base, n):
    check(n == 0, 8)
    check(base == 0 or base % PAGE, 9)


def extent(given, page, ns):
    whole(page)
    if page[0] != 2:
        return [0, 0]
    good_extent(at(page, 8, 8), at(page, 16, 4))
    return [at(page, 8, 8), at(page, 16, 4)]


def creates(given, page, ns):
    whole(page)
    return [at(page, 20, 4) if page[0] == 2 else 0]


def set_link(given, page, ns):
    last, off = given
    whole(page)
    check(off % PAGE, 5)
    check(off // PAGE >= 2**39, 6)
    put(page, 3, 5, off // PAGE * 2 + last)
    return []


def set_extent(given, page, ns):
    base, n = given
    whole(page)
    good_extent(base, n)
    page[0] = 2
    put(page, 8, 8, base)
    put(page, 16, 4, n)
    return []


def set_creates(given, page, ns):
    whole(page)
    if page[0] == 2:
        put(page, 20, 4, given[0])
    return []


def set_count(given, page, ns):
    whole(page)
    put(page, 1, 2, given[0])
    return []


def init(given, page, ns):
    whole(page)
    page[:] = [1, 0, 0, 1] + [0] * (PAGE - 4)
    return []


# ---- streams of pages

def page_scan(page):
    require_delta([], page, [])
    return scan_stream(page[start(page):], at(page, 1, 2))


def tail(given, page, ns):
    numbers, taken = page_scan(page)
    return [taken, numbers[-1] if numbers else 0]


def last_fk(given, page, ns):
    return tail(given, page, ns)[1:]


def try_append(given, page, ns):
    fk = given[0]
    whole(page)
    check(fk == 0, 12)
    check(fk >= TOP, 13)
    numbers, taken = page_scan(page)
    last = numbers[-1] if numbers else 0
    check(fk <= last, 32)
    new = form(fk - last)
    if taken + len(new) > PAGE - start(page):
        return [0]
    put(page, 1, 2, len(numbers) + 1)
    page[start(page) + taken:start(page) + taken + len(new)] = new
    page[0] = 2 if page[0] == 2 else 1
    return [1]


def entries(given, page, lent):
    numbers, _ = page_scan(page)
    lend(numbers, lent)
    return [len(numbers)]


def decode_slice(given, page, lent):
    return entries(given, page, lent) + next_off(given, page, lent)


def write_stream(given, page, ns):
    whole(page)
    check(len(ns) > 65535, 10)
    out = stream(ns, PAGE - start(page))
    page[start(page):start(page) + len(out)] = out
    put(page, 1, 2, len(ns))
    return [len(out)]


def packed(page, ns, version, link_to, named):
    """Packs a list into a page: link and extent are judged first, then the list."""
    whole(page)
    made = [0] * PAGE
    set_link(link_to, made, ns)
    if named:
        set_extent(named, made, ns)
    made[0] = version
    write_stream([], made, ns)
    page[:] = made
    return []


def pack_page(given, page, ns):
    next_page = given[0]
    return packed(page, ns, 1, [next_page == 0, next_page], None)


def pack_extent(given, page, ns):
    next_page, base, n = given
    return packed(page, ns, 2, [True, base] if next_page == 0 else [False, next_page], [base, n])
