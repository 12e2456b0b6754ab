"""Checks that the names that documents cite in backquotes are there: definitions, laws, functions, files, crates, edits.

`FILE`: `a`, `b` says that a and b stand in that file, and `CRATE`: `a` that a stands in that crate or is an edit of it. A name with … in it stands for all
that it begins or ends. What has a space in it is a command or a piece of code, of which only the paths are looked up.
"""
import re
import subprocess
from functools import lru_cache

from sources import CRATES, DECLARES, ROOT

# Words of Rattle, of its contracts and of Rust that documents cite as such, and signs that they explain.
WORDS = set("requires ensures match rt refusal ? Vec Option Result × ⊎ ≡ ≢ ⊥ ∷ [] λ ℕ result .now .old .new →".split())
DECLARED = {
    ".antt": DECLARES,
    ".rt": re.compile(r"\b(?:fn|enum|struct|type|const|mod) (\w+)|^ +([A-Z]\w*)(?=[,({ ])", re.M),
    ".rs": re.compile(r"\b(?:fn|enum|struct|type|const|mod) (\w+)"),
}


@lru_cache(None)
def files():
    """The repository's files, also those that aren't committed yet."""
    listed = subprocess.run(["git", "ls-files", "-co", "--exclude-standard"], cwd=ROOT, capture_output=True, text=True, check=True)
    return [ROOT / line for line in listed.stdout.splitlines() if (ROOT / line).exists()]


@lru_cache(None)
def declared_in(path):
    """The names that a file declares; of an edit, its own name."""
    pattern = DECLARED.get(path.suffix)
    found = {name for match in pattern.finditer(path.read_text()) for name in match.groups() if name} if pattern else set()
    return found | ({path.stem} if path.suffix == ".edit" else set())


@lru_cache(None)
def by_path():
    """Files by all that they can be called: the ends of their paths, with and without what stands behind the last dot."""
    found = {}
    for path in files():
        parts = path.relative_to(ROOT).parts
        for whole in (parts, parts[:-1] + (path.stem,)):
            for start in range(len(whole)):
                found.setdefault("/".join(whole[start:]), []).append(path)
    return found


@lru_cache(None)
def folders():
    """Folders by the ends of their paths, with the files below them."""
    found = {}
    for path in files():
        parts = path.relative_to(ROOT).parts[:-1]
        for start in range(len(parts)):
            for end in range(start + 1, len(parts) + 1):
                found.setdefault("/".join(parts[start:end]), []).append(path)
    return found


def called(name):
    """The files that a cited crate, file or folder means."""
    name = name.removesuffix("/")
    if (CRATES / name).is_dir():
        return [path for path in files() if CRATES / name in path.parents]
    return by_path().get(name) or folders().get(name, [])


def stands_in(name, paths):
    """One of some files declares a name, or is called by it."""
    return any(fits(name, known) for path in paths for known in declared_in(path) | {path.stem, path.name})


def fits(name, known):
    """A name, or one with … for what is left out."""
    before, dots, after = name.partition("…")
    return known == name or (dots != "" and known.startswith(before) and known.endswith(after))


def is_there(name):
    """A name of any kind; TYPE::METHOD stands in one file with its type."""
    owner, colons, method = name.partition("::")
    if colons:
        return any({owner, method} <= declared_in(path) for path in files())
    return name in WORDS or bool(called(name)) or stands_in(name, files()) or any(fits(name, folder) for folder in folders()) or is_projection(name)


def is_projection(name):
    """A part of a value, as `b.heads`, or what a reference holds, as `body.old`."""
    value, dot, part = name.partition(".")
    return re.fullmatch("[a-z]+", value) is not None and (dot + part in WORDS or stands_in(part, [path for path in files() if path.suffix == ".antt"]))


def missing_in(text):
    """The cited names that aren't there, each with its line."""
    for row, line in enumerate(re.sub(r"^```.*?^```", lambda m: re.sub(".*", "", m.group()), text, flags=re.M | re.S).split("\n"), 1):
        for cell in re.split(r"(?<!`)\|(?!`)", line):
            yield from ((row, name) for name in missing_in_cell(cell))


def missing_in_cell(cell):
    """The missing names of one cell or line; `FILE`: holds up to the next semicolon, full stop or FILE."""
    inside = None
    for match in re.finditer(r"`([^`]+)`(:?)|([;.] )", cell):
        name, colon, stop = match.groups()
        if stop or is_sample(name):
            inside = None
        elif " " in name:
            yield from (word for word in name.split() if re.fullmatch(r"[\w.]+/[\w./-]+", word) and not is_sample(word) and not called(word))
        elif colon and not called(name):
            yield name
        elif colon:
            inside = called(name)
        elif not (is_there(name) if inside is None or re.search("[/.]|::", name) or name in WORDS else stands_in(name, inside)):
            yield name


def is_sample(name):
    """A name that stands for any, as CRATE/FILE, that a command makes, or a file's sum, which is no name."""
    return re.fullmatch(r"[A-Z]+(/[A-Z]+)*|[0-9a-f]{64}", name) or name.startswith(("target/", "audit/"))
