"""What statements rest on: every definition of ours that their names lead to, and the names of the toolchain that are left."""
import re
from functools import lru_cache

from sources import CRATES, ROOT, Wrong, declaration, shown


class Reading:
    """The definitions that some statements rest on, by their targets, and the names of the toolchain. What is in `shut` isn't looked into."""

    def __init__(self, statements, shut=()):
        self.definitions, self.toolchain, self.shut = {}, set(), shut
        for statement in statements:
            self.follow(statement)

    def follow(self, user):
        for use in user.uses:
            meant = use.target
            if meant.kind == "toolchain":
                self.toolchain.add((meant.where, meant.name))
            elif meant.kind == "proofs":
                raise Wrong(f"{shown(user.source.path)}: `{user.name}` uses `{meant.name}` of {shown(meant.where)}; it belongs in specs/")
            elif meant not in self.shut:
                self.add(declaration(meant))

    def add(self, found):
        if found.target not in self.definitions:
            self.definitions[found.target] = found
            self.follow(found)

    def lines(self):
        """All lines to read."""
        return [line for found in self.definitions.values() for line in found.lines()]

    def comments(self):
        """The lines of comment among them."""
        return [line for line in self.lines() if line.lstrip().startswith(("-- ", "// "))]

    def by_file(self):
        """The definitions file by file: a file behind those that its definitions use, and in a file as they stand."""
        order = []
        for path in sorted({found.source.path for found in self.definitions.values()}, key=rank):
            self.place(path, order)
        return [(path, sorted(self.of_file(path), key=lambda found: found.line)) for path in order]

    def of_file(self, path):
        return [found for found in self.definitions.values() if found.source.path == path]

    def place(self, path, order):
        """A file behind those that it needs."""
        if path in order:
            return
        targets = {use.target for found in self.of_file(path) for use in found.uses}
        needed = {meant.where for meant in targets if meant.kind != "toolchain" and meant not in self.shut}
        for other in sorted(needed - {path}, key=rank):
            self.place(other, order)
        order.append(path)


@lru_cache(None)
def uses():
    """The crates, in the order of crates.txt, each with those that it names there."""
    return {name: named.split() for name, named in re.findall(r"^(\w+)[^:#\n]*:([^#\n]*)", (ROOT / "crates.txt").read_text(), re.M)}


def crate_names():
    """The crates, in the order of crates.txt."""
    return list(uses())


def needed_by(crate):
    """A crate, those that it names in crates.txt, and those that these name in turn; libraries of the toolchain are left out."""
    found = [crate]
    for name in found:
        found += [other for other in uses().get(name, []) if other in uses() and other not in found]
    return found


def rank(path):
    """Files by their crate's place in crates.txt, code before definitions."""
    crate, folder = path.relative_to(CRATES).parts[:2]
    return crate_names().index(crate), folder != "src", str(path)
