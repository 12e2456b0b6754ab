"""Edits that the prover has to refuse: which a crate has, and one applied to a copy of its crate."""
from pathlib import Path

ROOT = Path(__file__).resolve().parents[2]
CRATES = ROOT / "crates"
# What an edit may change, and what a check reads.
PARTS = ("src", "specs", "proofs")


class BadEdit(Exception):
    """An edit that can't be made, in words."""


def edits_of(crate, folders):
    """A crate's edits, of the folders named, by their names."""
    return sorted((path for folder in folders for path in (CRATES / crate / folder).glob("*.edit")), key=lambda path: path.stem)


def replacements(text):
    """The replacements of an edit, each a file, an old text and a new one: a `file:` line holds for the pairs behind it."""
    file = old = None
    found = []
    for line in text.split("\n"):
        word, colon, rest = line.partition(":")
        if word == "file" and colon:
            file = rest.removeprefix(" ")
        elif word == "old" and colon:
            old = rest.removeprefix(" ")
        elif word == "new" and colon:
            if not file or not old:
                raise BadEdit("a `new:` with no `file:` or `old:` before it")
            found.append((file, old, rest.removeprefix(" ")))
            old = None
    if not found:
        raise BadEdit("it replaces nothing")
    return found


def apply(edit, crate):
    """Makes an edit's replacements in a copy of its crate; each old text has to stand there once."""
    for file, old, new in replacements(edit.read_text()):
        path = crate / file
        if file.split("/")[0] not in PARTS or ".." in file or not path.is_file():
            raise BadEdit(f"there is no {file}")
        text = path.read_text()
        if text.count(old) != 1:
            raise BadEdit(f"its old text stands in {file} {text.count(old)} times")
        path.write_text(text.replace(old, new))
