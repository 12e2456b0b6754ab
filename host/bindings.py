#!/usr/bin/env python3
"""Writes the C headers, the Rust declarations of the exported functions and the table of refusals.

They are made from the exported functions' signatures and comments (crates/ouriscado/src), the version (rust/Cargo.toml), and in host/boundary the
headers' text, the constants and the one table of the refusals' words (refusals.py):

    include/ouriscado.h          for C and C++: the account book
    include/ouriscado_codec.h    for C and C++: the ported functions
    rust/src/sys.rs              for Rust: the declarations, and a function over slices for each
    rust/src/refusal.rs          the refusals, as an enum
    rust/src/limits.rs           the constants
    docs/FORMAT.md               the rows of its table of refusals

python3 host/bindings.py writes them. With --check it writes nothing, says in a line that they are as the exports say, and fails where one
differs. Both fail where the table of refusals has other numbers or names than crate error, where the shell says something else of one, and where a
function of the crate's module codec documents other refusals than its export.
"""
import re
import sys

sys.dont_write_bytecode = True
from boundary import c, refusals, rust
from boundary.exports import ROOT, fail, functions, refusal_names, shell_words

MADE = "Made by host/bindings.py from the exports and host/boundary: change those, and make it again."


def made(exported):
    """Each file with its text."""
    turned_back = refusals.ALL
    named_only(exported, turned_back)
    one_wording(turned_back)
    book, of_book = c.header("book.h.in", MADE, exported, turned_back)
    codec, of_codec = c.header("codec.h.in", MADE, exported, turned_back)
    if apart := {f.name for f in exported} ^ {*of_book, *of_codec}:
        fail(f"no header, or both, has {', '.join(sorted(apart))}")
    return {
        "include/ouriscado.h": book,
        "include/ouriscado_codec.h": codec,
        "rust/src/sys.rs": rust.declarations(MADE, exported),
        "rust/src/refusal.rs": rust.enum(MADE, turned_back),
        "rust/src/limits.rs": rust.limits(MADE),
        "docs/FORMAT.md": format_with(refusals.rows()),
    }


def format_with(rows):
    """docs/FORMAT.md with these rows in its table of refusals."""
    text = (ROOT / "docs/FORMAT.md").read_text()
    before, heading, rest = text.partition("\n## Refusals\n")
    table = re.search(r"^\|[-:|]+\|\n((?:\|.*\n)+)", rest, re.M)
    if not table:
        fail("docs/FORMAT.md has no table of refusals")
    return before + heading + rest[:table.start(1)] + "\n".join(rows) + "\n" + rest[table.end(1):]


def named_only(exported, turned_back):
    """Fails where the table of refusals has a number twice, where it has other names than crate error, or where an export says that it refuses a
    number that has no name."""
    numbers = [r.number for r in turned_back]
    if numbers != sorted(set(numbers)):
        fail("host/boundary/refusals.py doesn't list each number once, rising")
    if {r.number: r.name for r in turned_back if r.name} != refusal_names():
        fail("host/boundary/refusals.py and crate error have other names or numbers of refusals")
    retired = {r.number for r in turned_back if not r.name}
    for f in exported:
        if wrong := retired.intersection(f.refuses):
            fail(f"{f.name} says that it refuses {sorted(wrong)}, which no refusal has any more")


def one_wording(turned_back):
    """Fails where a text isn't in the form that all have, or the shell says something else: its words are the text, or what stands before a colon there."""
    texts = {r.number: r.text for r in turned_back}
    for number, text in texts.items():
        if not text[0].islower() or text.endswith(".") or not text.isascii() or '"' in text:
            fail(f"the text of refusal {number} has to begin in lower case, and to be ASCII without quotes and full stop")
    said = shell_words()
    if not said:
        fail("the shell has no words for refusals")
    for number, words in said.items():
        if words != texts[number] and not texts[number].startswith(f"{words}: "):
            fail(f"the shell says of refusal {number}: {words}; the table has: {texts[number]}")


def documented(exported):
    """Fails where a function of the Rust module codec says that it refuses something else than its export does."""
    text = "\n".join(p.read_text() for p in sorted((ROOT / "rust/src/codec").rglob("*.rs")))
    for f in exported:
        m = re.search(rf"((?:^ *///[^\n]*\n)+)(?:^ *#\[[^\n]*\n)*^ *pub fn {f.name.removeprefix('ouriscado_')}\(", text, re.M)
        if m and f.refuses:
            said = re.search(r"Refuses [^\n]*", f.text)[0]
            if said not in " ".join(m[1].replace("///", "").split()):
                fail(f"rust/src/codec: {f.name} has to say: {said}")


def main():
    exported = functions()
    texts = made(exported)
    stale = [p for p, text in texts.items() if not (ROOT / p).is_file() or (ROOT / p).read_text() != text]
    documented(exported)
    if "--check" in sys.argv:
        if stale:
            fail(f"not as the exports say: {', '.join(stale)}")
        print(f"bindings: {', '.join(texts)} are as the {len(exported)} exports say")
        return
    for p in stale:
        (ROOT / p).write_text(texts[p])
        print("wrote", p)


main()
