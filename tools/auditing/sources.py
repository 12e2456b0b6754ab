"""The repository's files: what each declares, and what its names mean.

`use M.{a, b as c}` brings names in. A circle in a name marks an argument's place: `◌≡◌` is used as `≡`. Each word of a declaration that is followed
must be known: a bound variable, a name that the file declares or brings in, or one of the words below. One that isn't known is an error, so that nothing is
passed over.
"""
import re
from collections import namedtuple
from functools import cached_property, lru_cache
from itertools import takewhile
from pathlib import Path

from words import NAME, Use, Walk, words_of

ROOT = Path(__file__).resolve().parents[2]
CRATES = ROOT / "crates"

SYNTAX = set("→ λ × = : _ Type record where".split())
PRELUDE = {"Unit": "Prim", "tt": "Prim", "⊥": "Prim", "¬": "Prim"}
TOOLCHAIN_CONSTRUCTORS = set("zero suc [] ∷ true false none some refl tt".split())

# Types of the language, which stand in code as they do in Rust.
LANGUAGE_TYPES = {"Result", "Option"}

USE = re.compile(r"(?:ghost )?use (\S+)\.\{(.*)\};?")
PASSES_ON = re.compile(r"^(?:unfoldable )?pub use (\S+)\.\{(.*)\}$", re.M)
OURS = re.compile(r"Rattle\.([a-z0-9_]+)\.(specs|proofs)\.(.+)")
DECLARES = re.compile(rf"^\s*(?:(?:unfoldable|abbrev|pub) )*(?:(data|record) ({NAME})|({NAME})(?= (?:\{{[^}}]*\}} )?:(?: |$)))", re.M)

# What a name means: `kind` is specs, proofs, code (a type declared in src/) or toolchain, `where` a file or a toolchain's module.
Target = namedtuple("Target", "kind where name")


class Wrong(Exception):
    """Something that makes the page wrong, in words for its reader."""


def shown(path):
    """A file's path from the repository's root."""
    return str(Path(path).relative_to(ROOT))


# ---- names brought in


def brought(lines):
    """The names that `use` lines bring in, each with what it means and the name that it has there."""
    for line in lines:
        match = USE.fullmatch(line)
        for item in match.group(2).split(",") if match else []:
            name, _, other = item.strip().partition(" as ")
            yield other or name, target(match.group(1), name), name


def target(module, name):
    """What a name of a module means."""
    ours = OURS.fullmatch(module)
    if not ours or not (CRATES / ours.group(1)).is_dir():
        return Target("toolchain", module, name)
    crate, folder, rest = ours.groups()
    if rest.startswith("declared."):
        name = rest.removesuffix(".TheVariants").split(".")[-1]
        return Target("code", code_file(crate, name), name)
    path = CRATES / crate / folder / (rest.replace(".", "/") + ".antt")
    passed = passed_on(path).get(name)
    return target(passed, name) if passed else Target(folder, path, name)


@lru_cache(None)
def passed_on(path):
    """The names that a file passes on, each with the module that it has them from."""
    found = PASSES_ON.findall(path.read_text()) if path.is_file() else []
    return {name.strip(): module for module, names in found for name in names.split(",")}


@lru_cache(None)
def code_file(crate, name):
    """The file of a crate's code that declares a type."""
    for path in sorted((CRATES / crate / "src").rglob("*.rt")):
        if re.search(rf"^(pub )?(enum|struct|type) {name}\b", path.read_text(), re.M):
            return path
    raise Wrong(f"crates/{crate}/src declares no type `{name}`")


# ---- declarations


class Declaration:
    """A declaration, or the statement of a theorem: its comment and its lines."""

    def __init__(self, source, name, line, comment, code):
        self.source, self.name, self.line, self.comment, self.code = source, name, line, comment, code
        self.target = Target(source.kind, source.path, name)

    def lines(self):
        return self.comment + self.code

    @cached_property
    def uses(self):
        """Each use of a name that isn't bound here."""
        return [use for use in self.source.uses_in(self) if use.target != self.target]

    def word(self, use):
        """The word by which a name is used here."""
        return self.code[use.row][use.column : use.column + use.length]

    def names(self):
        """The name that is declared, and the constructors or cases that come with it."""
        cases = re.findall(r"^    ([A-Z]\w*)", "\n".join(self.code), re.M) if self.code[0].startswith("pub enum") else []
        return {self.name, *cases, *(name for name, owner in self.source.declares.items() if owner is self)}


class Source:
    """A file: its heading comment, what it brings in, and what it declares. A constructor stands for its type."""

    def __init__(self, path, kind):
        self.path, self.kind, self.lines = path, kind, path.read_text().splitlines()
        self.brings = {name: meant for name, meant, _ in brought(self.lines)}
        self.there = {name: there for name, _, there in brought(self.lines)}
        self.declares, self.constructors = {}, set()
        first = next(i for i, line in enumerate(self.lines) if not line.startswith(("--", "//")))
        self.heading = " ".join(line[3:] for line in self.lines[:first])

    def meaning(self, text, scopes):
        """What a word means; none where it is bound, a numeral or syntax."""
        if any(text in scope for scope in scopes) or text in SYNTAX or re.fullmatch(r"[0-9]\w*", text):
            return None
        for name in (text, f"◌{text}◌", f"{text}◌"):
            if name in self.brings:
                return self.brings[name]
        if text in self.declares:
            return self.declares[text].target
        if text in PRELUDE:
            return Target("toolchain", PRELUDE[text], text)
        raise Wrong(f"{shown(self.path)}: `{text}` is not known")

    def is_constructor(self, text):
        """In a pattern such a word is meant, and any other is bound."""
        if text in TOOLCHAIN_CONSTRUCTORS or text in self.constructors:
            return True
        meant = self.brings.get(text)
        if meant is None or meant.kind == "toolchain":
            return False
        return meant.kind == "code" or text in source(meant.where, meant.kind).constructors

    def uses_in(self, found):
        return Walk(self).declaration(found.code)

    def comment_above(self, row, mark):
        """Where the comment directly above a row begins."""
        while row > 0 and self.lines[row - 1].startswith(mark):
            row -= 1
        return row


class Definitions(Source):
    """A file of definitions: blocks with an empty line between them."""

    def __init__(self, path):
        super().__init__(path, "specs")
        for match in re.finditer(r"(?:^.+$\n?)+", path.read_text(), re.M):
            self.add_block(match.string.count("\n", 0, match.start()) + 1, match.group().splitlines())

    def add_block(self, line, block):
        """The declaration of a block, where it has one."""
        comments = next((i for i, text in enumerate(block) if not text.startswith("--")), len(block))
        code = block[comments:]
        if not code or re.match(r"(pub )?(use|mod) ", code[0]):
            return
        match = DECLARES.match(code[0])
        if not match:
            raise Wrong(f"{shown(self.path)}:{line + comments}: no declaration is read here")
        found = Declaration(self, match.group(2) or match.group(3), line, block[:comments], code)
        constructors = re.findall(rf"^  ({NAME}) :", "\n".join(code), re.M) if match.group(1) == "data" else []
        self.constructors.update(constructors)
        self.declares.update(dict.fromkeys([found.name, *constructors], found))


class Statements(Source):
    """A file of proofs: the statements of its theorems, and the names of all that it declares."""

    def __init__(self, path):
        super().__init__(path, "proofs")
        for row, line in enumerate(self.lines):
            match = DECLARES.match(line)
            if match and not line.lstrip().startswith("--"):
                self.add(match.group(2) or match.group(3), row)

    def add(self, name, row):
        """The signature from a row on, with its comment and the section that it stands in."""
        indent = len(self.lines[row]) - len(self.lines[row].lstrip())
        end = next((i for i in range(row + 1, len(self.lines)) if not self.lines[i].startswith(" " * (indent + 1))), len(self.lines))
        section = self.section_above(row) if indent else []
        first = self.comment_above(row, " " * indent + "--")
        self.declares.setdefault(name, Declaration(self, name, row + 1, [], section + self.lines[first:end]))

    def section_above(self, row):
        """The heading of the section that a row stands in, which may have several lines, as one line."""
        start = next((i for i in range(row, -1, -1) if self.lines[i].startswith("module _")), None)
        if start is None:
            return []
        end = next(i for i in range(start, row) if self.lines[i].endswith("where"))
        return [" ".join(line.strip() for line in self.lines[start : end + 1])]


class Code(Source):
    """A file of code: the types that it declares, and the contracts of its functions."""

    def __init__(self, path):
        super().__init__(path, "code")
        for row, line in enumerate(self.lines):
            match = re.match(r'pub (?:extern "C" )?(?:enum|struct|type|fn) (\w+)', line)
            if match:
                self.add(match.group(1), row)

    def add(self, name, row):
        """A type, or a function up to its body."""
        end = row if self.lines[row].endswith(";") else next(i for i in range(row, len(self.lines)) if self.lines[i] in ("}", "{"))
        top = row
        while self.lines[top - 1].startswith("#["):
            top -= 1
        first = self.comment_above(top, "//")
        self.declares[name] = Declaration(self, name, first + 1, self.lines[first:top], self.lines[row : end + (self.lines[end] != "{")])

    def uses_in(self, found):
        """The types that a declaration names, and what a contract says, in one line or more."""
        uses, row = [], 0
        while row < len(found.code):
            line, end = found.code[row], row + 1
            if line.lstrip().startswith(("ensures", "requires")):
                end = next(i for i in range(row, len(found.code)) if is_closed(found.code[row : i + 1])) + 1
                uses += self.contract(found, row, found.code[row:end])
            else:
                named = [m for m in re.finditer(r"(?:[:([&<] ?|> |, )([A-Z]\w+)", line) if m.group(1) not in LANGUAGE_TYPES]
                uses += [Use(row, m.start(1), len(m.group(1)), self.type_named(m.group(1))) for m in named]
            row = end
        return uses

    def contract(self, found, row, lines):
        """What one clause of a contract says, in which the function's parameters and its result are bound."""
        words = words_of(lines)
        head = "".join(takewhile(lambda line: not line.lstrip().startswith(("ensures", "requires")), found.code))
        walk = Walk(self, ["result", *re.findall(r"(\w+):", head)])
        walk.expression(words[next(i for i, word in enumerate(words) if word.text == "{") :])
        return [use._replace(row=row + use.row) for use in walk.found]

    def type_named(self, name):
        """What a type's name means in this file."""
        crate = self.path.relative_to(CRATES).parts[0]
        for line in self.lines:
            match = re.fullmatch(rf"use (\w+)::(?:\w+::)*(?:{name}|\{{(?:.*, )?{name}(?:, .*)?\}});", line)
            if match and match.group(1) != "crate":
                crate = match.group(1)
        return Target("code", code_file(crate, name), name)


def is_closed(lines):
    """Whether each brace of some lines is closed."""
    text = "".join(lines)
    return text.count("{") == text.count("}")


@lru_cache(None)
def source(path, kind):
    """A file, read once."""
    if not Path(path).exists():
        raise Wrong(f"there is no file {shown(path)}")
    return {"specs": Definitions, "proofs": Statements, "code": Code}[kind](path)


def declaration(meant):
    """The declaration of a name."""
    declares = source(meant.where, meant.kind).declares
    if meant.name not in declares:
        raise Wrong(f"{shown(meant.where)} declares no `{meant.name}`")
    return declares[meant.name]
