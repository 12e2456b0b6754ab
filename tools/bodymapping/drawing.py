"""A book as an SVG picture."""
import textwrap

from library import PAGE_BYTES
from summary import MOST_ROWS as MOST_KEY_ROWS
from summary import freed_by_class, key_rows
from survey import plural

COLOURS = ["#4477aa", "#ee8866", "#228833", "#ccbb44", "#66ccee", "#aa3377", "#999933", "#882255", "#44aa99", "#ddcc77", "#332288", "#cc6677"]
FREED, PAST, BEFORE, BAD, INK = "#ffffff", "#eeeeee", "#d5d5d5", "#cc0000", "#222222"
MOST_ROWS = 48
LEGEND_WIDTH = 54  # letters in a line
STYLE = "text{font-family:Helvetica,Arial,sans-serif;font-size:12px;fill:#222222}.small{font-size:10px}.title{font-size:15px;font-weight:bold}.bad{fill:#cc0000;font-weight:bold}"
HATCH = ('<pattern id="freed" width="5" height="5" patternUnits="userSpaceOnUse" patternTransform="rotate(45)"><rect width="5" height="5" fill="#ffffff"/>'
         '<line x1="0" y1="0" x2="0" y2="5" stroke="#888888" stroke-width="1"/></pattern>'
         '<pattern id="unowned" width="4" height="4" patternUnits="userSpaceOnUse"><rect width="4" height="4" fill="#ffffff"/>'
         '<circle cx="2" cy="2" r="1" fill="#cc0000"/></pattern>'
         '<pattern id="many" width="3" height="3" patternUnits="userSpaceOnUse"><rect width="3" height="3" fill="#bbccee"/>'
         '<line x1="1" y1="0" x2="1" y2="3" stroke="#4477aa" stroke-width="1"/></pattern>'
         '<marker id="arrow" viewBox="0 0 6 6" refX="5" refY="3" markerWidth="5" markerHeight="5" orient="auto"><path d="M0 0L6 3L0 6z" fill="context-stroke"/></marker>')


def colour(key):
    return COLOURS[key % len(COLOURS)]


def ink(fill):
    """What is written on a colour: white on dark ones."""
    if not fill.startswith("#"):
        return INK
    red, green, blue = (int(fill[i:i + 2], 16) for i in (1, 3, 5))
    return "#ffffff" if 299 * red + 587 * green + 114 * blue < 128000 else INK


def escaped(text):
    return text.replace("&", "&amp;").replace("<", "&lt;").replace(">", "&gt;")


def text(x, y, words, kind="", anchor="start", fill=INK):
    shown = f' class="{kind}"' if kind else ""
    side = f' text-anchor="{anchor}"' if anchor != "start" else ""
    tint = f' style="fill:{fill}"' if fill != INK else ""
    return f'<text x="{x:g}" y="{y:g}"{shown}{side}{tint}>{escaped(words)}</text>'


class Frame:
    """Where the bytes of a body are drawn: rows of so many bytes, from an offset on."""

    def __init__(self, x, y, width, height, gap, row_bytes, start, size):
        self.x, self.y, self.width, self.height, self.gap = x, y, width, height, gap
        self.row_bytes, self.start, self.size = row_bytes, start, size
        self.rows = -(-(size - start) // row_bytes)

    def bottom(self):
        return self.y + self.rows * (self.height + self.gap)

    def row_top(self, off):
        return self.y + (off - self.start) // self.row_bytes * (self.height + self.gap)

    def column(self, off):
        return self.x + (off - self.start) % self.row_bytes * self.width / self.row_bytes

    def pieces(self, off, length):
        """The rectangles of some bytes, one for each row that they touch."""
        end = min(off + length, self.size)
        off = max(off, self.start)
        while off < end:
            stop = min(end, off - (off - self.start) % self.row_bytes + self.row_bytes)
            yield self.column(off), self.row_top(off), (stop - off) * self.width / self.row_bytes
            off = stop

    def filled(self, off, length, fill, title="", edge=INK):
        """Some bytes in a colour, with a text that a reader meets by pointing at them."""
        told = f"<title>{escaped(title)}</title>" if title else ""
        return [f'<rect x="{x:.2f}" y="{y:g}" width="{w:.2f}" height="{self.height}" fill="{fill}" stroke="{edge}" stroke-width="0.5">{told}</rect>'
                for x, y, w in self.pieces(off, length)]

    def label(self, off, length, words, fill=INK):
        """A text in the middle of some bytes, where there is room for it in their first row."""
        x, y, w = next(self.pieces(off, length))
        return [text(x + w / 2, y + self.height / 2 + 4, words, "small", "middle", fill)] if w >= 6 * len(words) + 4 else []


def links(frame, key):
    """The links of a key's chain: on the right, from each page to the next."""
    parts, edge = [], frame.x + frame.width
    for here, there in zip(key.blocks, key.blocks[1:]):
        y1, y2 = frame.row_top(here.off) + frame.height * 0.6, frame.row_top(there.off) + frame.height * 0.4
        bend = edge + 10 + min(34, abs(y2 - y1) * 0.22)
        parts.append(f'<path d="M{edge:g} {y1:g}C{bend:g} {y1:g} {bend:g} {y2:g} {edge:g} {y2:g}" fill="none" stroke="{colour(key.index)}" stroke-width="1.5" '
                     'marker-end="url(#arrow)"/>')
    return parts


def edge_of(survey, block):
    """The edge of a block: red where it belongs to what the check names."""
    fault = survey.fault
    named = fault and (block.key == fault.key if block.key is not None else block.class_ == fault.class_)
    return BAD if named else INK


def runs(frame, blocks):
    """Blocks in runs: those that are narrower than a point, and follow each other, in one run; each other one alone."""
    point, found = frame.row_bytes / frame.width, []
    for block in sorted(blocks, key=lambda block: block.off):
        last = found[-1][-1] if found else None
        if last and max(last.length, block.length) < point and 0 <= block.off - last.off - last.length < point:
            found[-1].append(block)
        else:
            found.append([block])
    return found


def run_of_keys(frame, survey, run, labels):
    """Blocks of keys: one in its key's colour, several narrow ones together."""
    first, last = run[0], run[-1]
    if len(run) > 1:
        edge = BAD if any(edge_of(survey, block) == BAD for block in run) else INK
        keys = {block.key for block in run}
        told = f"{len(run):,} slabs of {plural(len(keys), 'key')}, {min(keys):,} to {max(keys):,}"
        return frame.filled(first.off, last.off + last.length - first.off, "url(#many)", told, edge)
    what = "page" if first.length == PAGE_BYTES else f"slab of class {first.class_}"
    told = f"{survey.named(first.key)}: {what} at {first.off:,}, {plural(first.count, 'number')}"
    parts = frame.filled(first.off, first.length, colour(first.key), told, edge_of(survey, first))
    return parts + (frame.label(first.off, first.length, survey.named(first.key), ink(colour(first.key))) if labels else [])


def run_freed(frame, survey, run, labels):
    """Freed blocks: one, or several narrow ones together."""
    first, last = run[0], run[-1]
    told = f"freed block of class {first.class_} at {first.off:,}" if len(run) == 1 else f"{len(run):,} freed blocks from {first.off:,} on"
    edge = BAD if any(edge_of(survey, block) == BAD for block in run) else INK
    parts = frame.filled(first.off, last.off + last.length - first.off, "url(#freed)", told, edge)
    return parts + (frame.label(first.off, first.length, f"free {first.class_}") if labels and len(run) == 1 else [])


def bytes_of(frame, survey, labels=True):
    """The body's bytes: before the first block, blocks by owner, and past the mark."""
    parts = frame.filled(0, PAGE_BYTES, BEFORE, "no block begins here")
    parts += frame.filled(survey.mark, survey.size - survey.mark, PAST, "past the mark: never taken")
    for off, length in survey.unowned():
        parts += frame.filled(off, length, "url(#unowned)", f"{length:,} bytes at {off:,} that no sound key and no free list has", BAD)
    for run in runs(frame, survey.freed):
        parts += run_freed(frame, survey, run, labels)
    for run in runs(frame, [block for key in survey.keys for block in key.blocks]):
        parts += run_of_keys(frame, survey, run, labels)
    if len(survey.keys) <= MOST_KEY_ROWS:  # with more, arrows would hide each other
        parts += [line for key in survey.keys for line in links(frame, key)]
    return parts + (frame.label(0, PAGE_BYTES, "nothing begins here") if labels and frame.start == 0 else [])


def legend(survey, x, y):
    """What the colours mean, and where each key is; its last line's y."""
    parts = []

    def line(swatch, words, kind=""):
        nonlocal y
        if swatch:
            parts.append(f'<rect x="{x}" y="{y - 10}" width="14" height="12" fill="{swatch}" stroke="{INK}" stroke-width="0.5"/>')
        for part in textwrap.wrap(words, LEGEND_WIDTH):
            parts.append(text(x + 20, y, part, kind))
            y += 18

    line("", survey.verdict(), "bad" if survey.fault else "")
    for row in key_rows(survey):
        swatch = "url(#unowned)" if row.bad and row.key is None else colour(row.key) if row.key is not None else ""
        line(swatch, row.text, "bad" if row.bad else "")
    if len(survey.keys) > MOST_KEY_ROWS:
        line("url(#many)", "slabs of several keys, too narrow to be told apart")
    for desk in survey.desks:
        line("", desk.text())
    y += 8
    line("url(#freed)", "freed, or carved from a gap before a page:")
    listed = freed_by_class(survey)
    for at in range(0, len(listed), 4):
        line("", ", ".join(listed[at:at + 4]))
    for class_, why in survey.broken.items():
        line("", f"the free list of class {class_} {why}", "bad")
    if survey.unowned():
        line("url(#unowned)", f"no sound key's and not free: {sum(n for _, n in survey.unowned()):,} bytes", "bad")
    line(PAST, f"past the mark, {survey.mark:,}")
    line(BEFORE, "before 4,096, where no block begins")
    return parts, y


def document(width, height, title, parts):
    return (f'<svg xmlns="http://www.w3.org/2000/svg" width="{width:g}" height="{height:g}" viewBox="0 0 {width:g} {height:g}" role="img" style="max-width:100%;height:auto">\n'
            f"<title>{escaped(title)}</title>\n<style>{STYLE}</style>\n<defs>{HATCH}</defs>\n<rect width=\"100%\" height=\"100%\" fill=\"#ffffff\"/>\n"
            + "\n".join(parts) + "\n</svg>\n")


def picture(survey, title):
    """One book: its body in rows of a page, or of several where it is long, and the legend beside it."""
    row_bytes = PAGE_BYTES
    while survey.size > row_bytes * MOST_ROWS:
        row_bytes *= 2
    frame = Frame(70, 50, 560, 20, 5, row_bytes, 0, survey.size)
    head = [text(20, 26, f"{title}: {survey.size:,} bytes, a row has {row_bytes:,}", "title")]
    offsets = [text(62, frame.y + row * 25 + 14, f"{row * row_bytes:,}", "small", "end") for row in range(frame.rows)]
    lines, bottom = legend(survey, 690, 62)
    return document(1060, max(frame.bottom(), bottom) + 15, title, head + offsets + bytes_of(frame, survey) + lines)


def strip(stages):
    """Several books side by side, the first page left out: what key 0 has, stage by stage."""
    parts, x, step = [text(20, 26, "The life of key 0, beside a slab of key 1; a row has 1,024 bytes, from offset 4,096 on", "title")], 20, 208
    bottom = 0
    for title, survey in stages:
        frame = Frame(x, 64, 170, 14, 3, 1024, PAGE_BYTES, survey.size)
        parts += [text(x, 52, title, "title")] + bytes_of(frame, survey, labels=False)
        key = survey.keys[0]
        swatch = colour(0) if key.blocks else FREED
        y = frame.bottom() + 16
        parts.append(f'<rect x="{x}" y="{y - 9}" width="10" height="10" fill="{swatch}" stroke="{INK}" stroke-width="0.5"/>')
        for words in key.text.split(", "):
            parts.append(text(x + 16, y, words, "small"))
            y += 13
        freed = ", ".join(f"{b.class_}" for b in sorted(survey.freed, key=lambda b: b.class_)) or "none"
        for words in (f"mark {survey.mark:,}", f"freed classes: {freed}"):
            parts.append(text(x + 16, y, words, "small"))
            y += 13
        bottom, x = max(bottom, y), x + step
    x = 20
    for fill, words in ((colour(0), "key 0"), (colour(1), "key 1"), ("url(#freed)", "freed, or carved from a gap before a page"), (PAST, "past the mark")):
        parts.append(f'<rect x="{x}" y="{bottom + 5}" width="14" height="12" fill="{fill}" stroke="{INK}" stroke-width="0.5"/>')
        parts.append(text(x + 20, bottom + 15, words))
        x += 45 + 7 * len(words)
    return document(20 + step * len(stages), bottom + 28, "The life of a key", parts)
