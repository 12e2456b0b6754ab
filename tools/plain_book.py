"""The plain book of docs/FORMAT.md in Python, for what programs have to write: apart from the code that is tested."""
from sizes import LAST_ROOM, PAGE, PAGE_ROOM, Refused, by_bytes, form_len, gap_blocks, page_ranges, slab_bytes, slab_slots, with_slack

START = 4096
DESKS, MOST_WORD = 16, 2**64 - 1
SLABS_END, MOST_BODY, MOST_COUNTED = 2**40, 2**41, 2**32 - 1


def form_lens(ns):
    """The lengths of the shortest forms of a stream."""
    return [form_len(n - p) for p, n in zip([0] + ns, ns)]


def stream_len(ns):
    return sum(form_lens(ns))


def padding(ns, stored):
    """The numbers of a stream whose stored form is padded, longer than the shortest, each with the bytes that it is longer by."""
    return {n: length - least for n, length, least in zip(ns, stored, form_lens(ns)) if length > least}


def moves_to(ns):
    """The class of the slab that a list moves to, none where it goes to a page."""
    slack, tight = with_slack(len(ns)), by_bytes(2 + stream_len(ns))
    return None if slack is None or tight is None else max(slack, tight)


def loads_to(ns, tight):
    """The class of the slab that a list is loaded to, none where it goes to pages: tight by its bytes, else that of a move."""
    if not tight:
        return moves_to(ns)
    return by_bytes(2 + stream_len(ns)) if len(ns) <= 256 else None


def cutting(ns):
    """The parts of a list for a run of pages."""
    return [ns[start:end] for start, end in page_ranges(ns)]


def total_told(length):
    """The total that a last page tells: the length, or 0 where four bytes can't hold it."""
    return length if length <= MOST_COUNTED else 0


def pages_of(place):
    return len(place[1]) if place[0] == "pages" else 0


def past_slabs(c, off):
    """Whether a block is a slab that ends past the end of slabs."""
    return c < 8 and off + slab_bytes(c) > SLABS_END


def lowest(offs, pages):
    """Where the lowest stretch of so many pages side by side begins, among offsets of freed pages; none where there is none."""
    start = end = None
    for off in sorted(offs):
        start, end = (start if off == end else off), off + PAGE
        if end - start == pages * PAGE:
            return start
    return None


def lengths_bad(size, heads):
    return size % PAGE != 0 or not 2 * PAGE <= size <= MOST_BODY or not 1 <= heads <= 65536


def list_bad(desks, heads):
    """Whether a list isn't that of a desk, 0 to 15, for each key."""
    return len(desks) != heads or any(desk >= DESKS for desk in desks)


def lacks(reserve, held):
    """What desks still lack of their reserves."""
    return sum(max(0, wanted - has) for wanted, has in zip(reserve, held))


def made(size, heads, desks, reserve, ceiling):
    """A book that is made fresh for desks with reserves and ceilings."""
    if lengths_bad(size, heads) or max(reserve) > size // PAGE:
        raise Refused(1)
    if list_bad(desks, heads) or sum(reserve) > size // PAGE - 1 or any(r > c for r, c in zip(reserve, ceiling)):
        raise Refused(39)
    return Book(size, heads, desks, reserve, ceiling)


class Book:
    """The plain book: lists, places, padded numbers, a mark and nine stacks; the desk of each key, and of each desk the pages that it holds, a
    reserve and a ceiling. Nothing said of desks, all keys are desk 0's, and there are no limits."""

    def __init__(self, size, heads, desks=None, reserve=None, ceiling=None):
        self.size, self.mark, self.stacks = size, START, [[] for _ in range(9)]
        self.lists, self.places, self.padded = [[] for _ in range(heads)], [("empty",)] * heads, [{} for _ in range(heads)]
        self.desks, self.held = [0] * heads if desks is None else list(desks), [0] * DESKS
        self.reserve, self.ceiling = list(reserve or [0] * DESKS), list(ceiling or [MOST_WORD] * DESKS)

    def rounded(self):
        """Where a page begins at the mark, and the blocks of the gap before it: none past the end of slabs."""
        end = -(-self.mark // PAGE) * PAGE
        return end, gap_blocks(self.mark, end) if end <= SLABS_END else []

    def to_be_had(self, freed, mark):
        """The pages to be had where so many are freed and the mark is so: these, and the whole ones past the rounded mark."""
        return freed + self.size // PAGE - -(-mark // PAGE)

    def leave(self, desk, pages, freed, mark):
        """Whether a desk may take so many pages, by the freed pages and the mark that this leaves."""
        held = [has + pages * (d == desk) for d, has in enumerate(self.held)]
        if pages > 0 and held[desk] > self.ceiling[desk]:
            raise Refused(40)
        if self.to_be_had(freed, mark) < lacks(self.reserve, held):
            raise Refused(41)

    def run(self, desk, pages):
        """Takes the run of a load: the lowest stretch of so many freed pages, else one at the mark. Those left keep their order."""
        off, freed = lowest(self.stacks[8], pages), len(self.stacks[8])
        if off is None:
            return self.run_at_mark(desk, pages)
        self.leave(desk, pages, freed - pages, self.mark)
        self.stacks[8] = [o for o in self.stacks[8] if not off <= o < off + pages * PAGE]
        return off

    def run_at_mark(self, desk, pages):
        off, gap = self.rounded()
        if off + pages * PAGE > self.size:
            raise Refused(36)
        self.leave(desk, pages, len(self.stacks[8]), off + pages * PAGE)
        for c, o in gap:
            self.stacks[c].append(o)
        self.mark = off + pages * PAGE
        return off

    def take(self, desk, c):
        """Takes a slab of a class, or a page for an append."""
        pages, freed = int(c == 8), len(self.stacks[8])
        if self.stacks[c]:
            if past_slabs(c, self.stacks[c][-1]):
                raise Refused(35)
            self.leave(desk, pages, freed - pages, self.mark)
            return self.stacks[c].pop()
        if c == 8:
            return self.run_at_mark(desk, 1)
        if past_slabs(c, self.mark) or self.mark + slab_bytes(c) > self.size:
            raise Refused(36)
        self.leave(desk, 0, freed, self.mark + slab_bytes(c))
        self.mark += slab_bytes(c)
        return self.mark - slab_bytes(c)

    def judge(self, ns, prev):
        for i, n in enumerate(ns):
            for number, turned in ((12, i == 0 and n == 0), (13, n >= 2**63), (14, n >= 2**62), (32, n <= prev)):
                if turned:
                    raise Refused(number)
            prev = n

    def on(self, key):
        """Whether there is a key; its desk."""
        if self.out_of_shape():
            raise Refused(1)
        if list_bad(self.desks, len(self.lists)):
            raise Refused(39)
        if key >= len(self.lists):
            raise Refused(2)
        return self.desks[key]

    def out_of_shape(self):
        return lengths_bad(self.size, len(self.lists))

    def put(self, key, ns, place):
        """A key's new list and place; its desk holds the pages of the one no more and those of the other."""
        self.held[self.desks[key]] += pages_of(place) - pages_of(self.places[key])
        self.lists[key], self.places[key] = ns, place

    def total(self, key):
        """The total in a key's last page, none of a key that isn't in pages."""
        return total_told(len(self.lists[key])) if self.places[key][0] == "pages" else None

    def stored_len(self, key, ns):
        """The bytes that a stream of a key takes as it is stored."""
        return stream_len(ns) + sum(self.padded[key].get(n, 0) for n in ns)

    def append(self, key, n):
        desk = self.on(key)
        old, place = self.lists[key], self.places[key]
        self.judge([n], old[-1] if old else 0)
        new, rewritten = old + [n], 0
        if place[0] == "empty":
            place = ("inline",)
        elif place[0] == "pages":
            pages = [list(p) for p in place[1]]
            if self.stored_len(key, pages[-1][2] + [n]) <= pages[-1][1]:
                pages[-1][2] = pages[-1][2] + [n]
            else:
                pages.append([self.take(desk, 8), LAST_ROOM, [n]])
            place = ("pages", pages)
        elif place[0] == "inline" or not (len(new) <= min(256, slab_slots(place[1])) and 2 + self.stored_len(key, new) <= slab_bytes(place[1])):
            to, rewritten = moves_to(new), len(old)
            if to is None:
                moved = ("pages", [[self.take(desk, 8), LAST_ROOM, new]])
            else:
                moved = ("slab", to, self.take(desk, to))
            self.free(place)
            place, self.padded[key] = moved, {}
        self.put(key, new, place)
        return rewritten

    def extend(self, key, ns):
        """Appends numbers until one is refused: how many were appended, its refusal or none, how many moved the list, and the records rewritten."""
        self.on(key)
        rewritten = []
        for n in ns:
            try:
                rewritten.append(self.append(key, n))
            except Refused as refused:
                return len(rewritten), refused, sum(map(bool, rewritten)), sum(rewritten)
        return len(rewritten), None, sum(map(bool, rewritten)), sum(rewritten)

    def load(self, key, ns, tight=False):
        desk = self.on(key)
        if self.places[key][0] != "empty":
            raise Refused(3)
        if len(ns) > 65535:
            raise Refused(10)
        self.judge(ns, 0)
        pages, place = 0, ("inline",) if len(ns) == 1 else ("empty",)
        if len(ns) > 1:
            to = loads_to(ns, tight)
            if to is not None:
                place = ("slab", to, self.take(desk, to))
            else:
                parts = cutting(ns)
                pages, off = len(parts), self.run(desk, len(parts))
                place = ("pages", [[off + i * PAGE, LAST_ROOM if i == pages - 1 else PAGE_ROOM, p] for i, p in enumerate(parts)])
        self.put(key, list(ns), place)
        return pages

    def load_tight(self, key, ns):
        return self.load(key, ns, tight=True)

    def read(self, key, room):
        self.on(key)
        ns, place = self.lists[key], self.places[key]
        if room < len(ns):
            raise Refused(34)
        return ns, pages_of(place), len(self.padded[key])

    def drop(self, key):
        self.on(key)
        self.free(self.places[key])
        length = len(self.lists[key])
        self.put(key, [], ("empty",))
        self.padded[key] = {}
        return length

    def free(self, place):
        if place[0] == "slab":
            self.stacks[place[1]].append(place[2])
        if place[0] == "pages":
            self.stacks[8] += [p[0] for p in place[1]]
