"""A book in a few lines of text, and its keys in rows: many of one kind folded into one."""
from itertools import groupby

from library import PAGE_BYTES, PAGE_CLASS
from survey import padded_some, plural

MOST_ROWS = 40  # of keys, before they are folded
PLACES = {"empty": "empty", "inline": "inline", "slab": "in slabs", "pages": "in pages"}


class Row:
    """A row: its text, the key whose colour it has, or none, and whether it is a fault."""

    def __init__(self, text, key=None, bad=False):
        self.text, self.key, self.bad = text, key, bad


def key_row(survey, key, marked):
    """The rows of one key; one that the check names says so."""
    named = ", the first fault" if marked else ""
    if key.refusal:
        return [Row(f"{survey.named(key.index)}: a read is refused with {key.refusal}{named}", bad=True), Row(f"its head word: {key.text}")]
    return [Row(f"{survey.named(key.index)}: {key.text}{named}", key.index if key.blocks else None, marked)]


def numbers_of(keys):
    """How many numbers some keys have, behind a comma, or nothing of empty ones; and how many are padded, where some are."""
    count = sum(key.count for key in keys)
    return f", {plural(count, 'number')}{padded_some(sum(key.padded for key in keys))}" if count else ""


def folded(keys):
    """The row of keys of one kind that follow each other."""
    first, last = keys[0], keys[-1]
    return Row(f"keys {first.index:,} to {last.index:,}: {PLACES[first.kind]}{numbers_of(keys)}", first.index if first.blocks else None)


def key_rows(survey):
    """The rows of all keys. Where there are many, those of one kind that follow each other are one row, and what is then still too long is one row for
    each kind; a key with a fault has its own."""
    named = survey.fault.key if survey.fault else None
    if len(survey.keys) <= MOST_ROWS:
        return [row for key in survey.keys for row in key_row(survey, key, key.index == named)]
    apart = [key for key in survey.keys if key.refusal or key.index == named]
    others = [key for key in survey.keys if not key.refusal and key.index != named]
    runs = [[*run] for _, run in groupby(others, lambda key: key.kind)]
    rows = [row for key in apart[:MOST_ROWS] for row in key_row(survey, key, key.index == named)]
    if len(apart) > MOST_ROWS:
        rows.append(Row(f"and {len(apart) - MOST_ROWS:,} more keys whose reads are refused", bad=True))
    if len(runs) <= MOST_ROWS:
        return rows + [row for run in runs for row in ([folded(run)] if len(run) > 1 else key_row(survey, run[0], False))]
    return rows + [Row(line) for line in by_kind(others)]


def by_kind(keys):
    """How many keys there are of each kind, a line each."""
    for kind, words in PLACES.items():
        those = [key for key in keys if key.kind == kind]
        if those:
            yield f"{plural(len(those), 'key')} {words}{numbers_of(those)}"


def freed_by_class(survey):
    """How many freed blocks there are of each class, those of classes that have none left out."""
    counts = [(sum(block.class_ == c for block in survey.freed), c) for c in range(PAGE_CLASS + 1)]
    return [plural(n, "page") if c == PAGE_CLASS else f"{n:,} of class {c}" for n, c in counts if n] or ["none"]


def faults(survey):
    """What is wrong, a line each."""
    found = [survey.verdict()] if survey.fault else []
    found += [f"the free list of class {class_} {why}" for class_, why in survey.broken.items()]
    refused = [key for key in survey.keys if key.refusal]
    found += [f"key {key.index}: a read is refused with {key.refusal}; its head word: {key.text}" for key in refused[:MOST_ROWS]]
    return found + ([f"and {len(refused) - MOST_ROWS:,} more keys whose reads are refused"] if len(refused) > MOST_ROWS else [])


def summary(survey):
    """The book in lines."""
    used = [block for key in survey.keys for block in key.blocks]
    pages = sum(block.length == PAGE_BYTES for block in used)
    nobody = sum(length for _, length in survey.unowned())
    yield f"body of {survey.size:,} bytes, the mark at {survey.mark:,}, {plural(len(survey.keys), 'key')}"
    yield from (f"  {line}" for line in by_kind(survey.keys))
    yield f"in use: {plural(pages, 'page')} and {plural(len(used) - pages, 'slab')}, {sum(block.length for block in used):,} bytes"
    yield f"freed: {', '.join(freed_by_class(survey))}; {sum(block.length for block in survey.freed):,} bytes"
    yield from (desk.text() for desk in survey.desks)
    yield f"below the mark and nobody's: {nobody:,} bytes; past the mark: {survey.size - survey.mark:,} bytes"
    yield from faults(survey) or [survey.verdict()]
