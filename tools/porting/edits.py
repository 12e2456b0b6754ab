#!/usr/bin/env python3
"""Brings the edits of crates/*/must-fail and crates/*/edits to the spelling of today's Rattle, once, after port.py and tools/respell.py.

usage: tools/porting/edits.py LANDED        at the top of the repository

LANDED is a checkout of the repository as it was before port.py. The line that an old text stands in there has to be one of today's file once it is respelled,
and the texts with it; else the edit is left as it is, and said. So is in the end each edit that can't be made today, and what a new text of specs/ names that
its file doesn't. An edit that is no longer as it landed is not written again.
"""
import re
import sys
from pathlib import Path

sys.dont_write_bytecode = True
sys.path[:0] = [str(Path(__file__).resolve().parents[1]), str(Path(__file__).resolve().parents[1] / "editing")]
import respell
from edit import CRATES, replacements

WORD = re.compile(r"[^\W\d][\w']*")
PRELUDE = "use Rattle.std.specs.Prelude.{"


def tight(text):
    """Projections as today's Rattle has them: `(f x .a)` is `(f x).a`, and `x .a` is `x.a`."""
    text = re.sub(r"\((\w+(?: \w+)+) \.(\w+)\)", r"(\1).\2", text)
    text = re.sub(r"\((\w+(?: \.\w+)+)\)", r"\1", text)
    return re.sub(r"(?<=\w) \.(?=\w)", ".", text)


def spelled(text, file, table):
    """Code of a landed file in today's spelling: that of src/ is the same."""
    return tight(respell.antt(re.sub(r"\bgetD\b", "get_or", text), table)) if file.endswith(".antt") else text


def imported(old, new):
    """An edit that imports more of the older Rattle's lib: its names join the import of std's Prelude."""
    names = [re.findall(r"\w+", it[it.index("{") :]) for it in (old, new)]
    return PRELUDE, PRELUDE + "".join(f"{it}," for it in names[1] if it not in names[0])


def brought(text, landed, crate, table):
    """An edit in today's spelling, or why a text of it isn't found."""
    out, before, now, pairs = [], {}, {}, iter(replacements(text))
    for line in text.split("\n"):
        word = line.partition(":")[0]
        if word == "old":
            file, old, new = next(pairs)
            was = before.setdefault(file, (landed / file).read_text())
            text_now = now.setdefault(file, (crate / file).read_text())
            at = was.index(old)
            first, last = was.rfind("\n", 0, at) + 1, was.find("\n", at)
            line_was, line_new = (spelled(it, file, table) for it in (was[first:last], was[first:last].replace(old, new)))
            old_now, new_now = (spelled(it, file, table) for it in (old, new))
            if old.startswith("use lib."):
                old_now, new_now = imported(old, new)
            elif line_was not in text_now.split("\n") or line_was.replace(old_now, new_now) != line_new:
                return None, f"{file}: {old}"
            if text_now.count(old_now) != 1:
                return None, f"{file}: {old}"
            before[file], now[file] = was.replace(old, new), text_now.replace(old_now, new_now)
            line = f"old: {old_now}"
        elif word == "new":
            line = f"new: {new_now}"
        elif word != "file":
            line = respell.turned_comment(line, table)
        out.append(line)
    return "\n".join(out), None


def amiss(text, crate):
    """What is wrong with an edit today, if something is: an old text that doesn't stand once, or a word that the file doesn't have."""
    texts = {}
    for file, old, new in replacements(text):
        was = texts.setdefault(file, (crate / file).read_text())
        if was.count(old) != 1:
            yield f"{file} has {was.count(old)} times {old}"
        if file.endswith(".antt"):
            yield from (f"{file} doesn't name {it}" for it in WORD.findall(new) if it not in WORD.findall(was))
        texts[file] = was.replace(old, new)


def main():
    landed = Path(sys.argv[1]) / "crates"
    table = respell.table_of(landed)[0]
    for edit in sorted(CRATES.glob("*/*/*.edit")):
        crate, label = edit.parents[1], edit.relative_to(CRATES)
        text = edit.read_text()
        if text == (landed / label).read_text():
            new, why = brought(text, landed / crate.name, crate, table)
            if why:
                print(f"{label}: not found, {why}")
            elif new != text:
                edit.write_text(new)
        for why in amiss(edit.read_text(), crate):
            print(f"{label}: {why}")


if __name__ == "__main__":
    main()
