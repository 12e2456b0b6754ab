"""What crosses the C boundary, read from the sources: the exported functions, the refusals' names, the constants and the version."""
import re
import sys
from pathlib import Path

ROOT = Path(__file__).resolve().parent.parent.parent
NUMBERS = {"u8", "u16", "u32", "u64", "usize", "bool"}
FUNCTION = re.compile(r'((?://[^\n]*\n)+)(?:#\[[^\n]*\n)*pub (?:extern "C" )?fn (ouriscado_\w+)\(([^)]*)\)(?: -> (\w+))?')
EXPORT = re.compile(r'#\[unsafe\(no_mangle\)\]\n(?:#\[[^\n]*\n)*pub extern "C" fn (\w+)\(([^)]*)\)(?: -> (\w+))?')
VARIANT = re.compile(r"^    (\w+) = (\d+),", re.M)
SHELL_WORDS = re.compile(r'^ *Refusal::(\w+) => "([^"]+)"', re.M)
LISTED = re.compile(r"\d+(?:(?:, | and | to )\d+)*(?=, where|\.?$)")
BOOK, CORE = "ouriscado_book_", "ouriscado_core_"

# The constants of the boundary: name, value, Rust type, text. A test of the Rust crate tries each limit on the library.
CONSTANTS = {
    "kinds": [
        ("KIND_EMPTY", 0, "u8", "the list is empty"),
        ("KIND_INLINE", 1, "u8", "one number, which stands in the head word itself"),
        ("KIND_SLAB", 2, "u8", "2 to 256 numbers, in a slab of the body"),
        ("KIND_PAGES", 3, "u8", "in a chain of pages of the body"),
    ],
    "sizes": [
        ("STATE_WORDS", 59, "usize", "words of a state: the mark, nine free heads, then 49 counts"),
        ("FREE_HEADS", 9, "usize", "free heads of a state, one for each class from 0 to 8"),
        ("COUNT_WORDS", 49, "usize", "counts of a state: freed pages, and of each desk the pages that it holds, then all reserves, then all ceilings"),
        ("DESKS", 16, "usize", "desks, of the numbers 0 to 15"),
        ("NO_CEILING", (1 << 64) - 1, "u64", "the ceiling of a desk that may take every page"),
        ("PAGE_BYTES", 4096, "usize", "bytes of a page, and the unit of a body's length"),
        ("LEAST_BODY_BYTES", 8192, "usize", "the least bytes of a body"),
        ("MOST_BODY_BYTES", 1 << 41, "usize", "the most bytes of a body"),
        ("SLABS_END", 1 << 40, "u64", "the offset that no slab which is taken ends past; pages may"),
        ("MOST_HEADS", 65536, "usize", "the most head words, one for each account"),
        ("MOST_NUMBER", (1 << 62) - 1, "u64", "the largest record number"),
        ("MOST_LOADED", 65535, "usize", "the most numbers in one load"),
        ("MOST_IN_SLAB", 256, "usize", "the most numbers in a slab; a longer list stands in pages"),
        ("MOST_IN_PAGE", 4088, "usize", "the most numbers in a page"),
        ("PAGE_CLASS", 8, "u8", "the class of a page; slabs have the classes 0 to 7"),
        ("WORK_UNIT", 128, "usize", "bytes of a body for each byte of the work list that a check is lent"),
    ],
    "grounds": [
        ("START_GOOD", 0, "u32", "the start is good"),
        ("START_KEY_UNSOUND", 1, "u32", "the key isn't sound: a read, a length and a drop of it are refused with 31, a load with 3; an append and an extend too are refused with 31, but of pages they look at the last one alone, and may be accepted"),
        ("START_KEY_SHARES", 2, "u32", "a block of the key shares bytes with another of its own, or with one of a key before it"),
        ("START_FREE_STRAYS", 3, "u32", "the free list names an offset where no such block can stand: taking it is refused with 35, and of pages a run with 42"),
        ("START_FREE_SHARES", 4, "u32", "a block of the free list shares bytes with one in use, or with one that this list or one of a smaller class named before; a list that doesn't end comes to such a block"),
        ("START_COUNTS_EXCEED", 5, "u32", "freed and held pages are counted, with the first and those past the mark, as more than the body has"),
        ("START_FREED_UNTRUE", 6, "u32", "freed pages are counted as other than their list has: a run is refused with 42"),
        ("START_HELD_UNTRUE", 7, "u32", "the desk's pages are counted as other than its keys have"),
        ("START_PAST_CEILING", 8, "u32", "the desk holds more pages than its ceiling"),
        ("START_RESERVE_HIGH", 9, "u32", "the desk's reserve is above its ceiling"),
        ("START_RESERVES_LACK", 10, "u32", "desks lack more pages of their reserves than are to be had, freed or past the mark"),
    ],
    "stacks": [
        ("STACK_BOOK", 4096, "usize", "bytes of stack of any call of the book but the loads"),
        ("STACK_LONG", 40960, "usize", "bytes of stack of a load, tight or not, and of a ported function that reads out more than 256 numbers"),
    ],
}


def fail(text):
    sys.exit(f"bindings: {text}")


def comment(lines):
    """The text of a block of line comments."""
    return " ".join(l.removeprefix("//").strip() for l in lines.strip().split("\n"))


class Parameter:
    """A parameter of an exported function: a number, or a reference to a number, an array, or a slice of numbers or of arrays."""

    def __init__(self, text):
        self.name, kind = (s.strip() for s in text.split(":", 1))
        m = re.fullmatch(r"(&)?(mut )?(?:\[(\w+|\[\w+; \d+\])(?:; (\d+))?\]|(\w+))", kind)
        if not m:
            fail(f"the type {kind} of {self.name} can't cross the boundary")
        self.ref, self.mut, item, self.len, number = m[1], m[2], m[3], m[4], m[5]
        self.item, self.slice = item or number, bool(item) and not self.len
        self.number, *self.each = re.findall(r"\w+", self.item)  # of a slice of arrays, the length of each
        if self.number not in NUMBERS or (item and not self.ref) or (self.each and self.len):
            fail(f"the type {kind} of {self.name} can't cross the boundary")


class Function:
    """An exported function: its comment, name, parameters, result and the numbers that it refuses with."""

    def __init__(self, m):
        self.text, self.name, self.result = comment(m[1]), m[2], m[4]
        self.parameters = [Parameter(p) for p in re.split(r",\s*(?![^\[]*\])", m[3].strip().rstrip(",")) if p.strip()]
        self.of_book = self.name.startswith((BOOK, CORE))
        self.refuses = sorted(refused_in(self.text))


def refused_in(text):
    """The numbers that a comment's last sentence names: 'Refuses 4, 15 to 18.', also with a 'where' after some of them."""
    _, _, sentence = text.partition("Refuses ")
    for listed in LISTED.findall(sentence):
        for first, last in re.findall(r"(\d+)(?: to (\d+))?", listed):
            yield from range(int(first), int(last or first) + 1)


def functions():
    """Every exported function, in the order of the files and of the functions in them: crate ouriscado has them with their comments, and the static
    library ouriscado_c, where it is there, exports the same, with the same clauses."""
    found, out = [], []
    for path in sorted((ROOT / "crates/ouriscado/src").rglob("*.rt")):
        text = path.read_text()
        of_file = list(FUNCTION.finditer(text))
        if len(of_file) != text.count(" fn ouriscado_"):
            fail(f"{path.name} has an exported function with no comment, or in another form")
        found += [statement(text, m, 2) for m in of_file]
        out += [Function(m) for m in of_file]
    library = ROOT / "crates/ouriscado_c/src"
    if library.is_dir():
        texts = [path.read_text() for path in library.rglob("*.rt")]
        exported = [statement(text, m, 1) for text in texts for m in EXPORT.finditer(text)]
        if apart := {name for name, *_ in {*found} ^ {*exported}}:
            fail(f"crates ouriscado and ouriscado_c have other functions, parameters, results or clauses: {', '.join(sorted(apart))}")
    return out


def statement(text, m, first):
    """A function's name, parameters, result and clauses, however they are laid out; the first is the match's group for the name."""
    name, parameters, result = m.group(first, first + 1, first + 2)
    clauses = text[m.end():text.index("\n{\n", m.end())]
    return name, " ".join(parameters.split()).rstrip(","), result, " ".join(clauses.split())


def capitals(name):
    """A name of crate error in capitals, as C has it: ShapeBad is SHAPE_BAD, StoredBit63 is STORED_BIT_63."""
    return re.sub(r"(?<=[a-z])(?=[A-Z0-9])", "_", name).upper()


def refusal_names():
    """The name of each refusal by its number, as crate error has it, in capitals."""
    return {int(number): capitals(name) for name, number in VARIANT.findall((ROOT / "crates/error/src/lib.rt").read_text())}


def shell_words():
    """What the shell says of each refusal that it knows, by its number."""
    numbers = dict(VARIANT.findall((ROOT / "crates/error/src/lib.rt").read_text()))
    return {int(numbers[name]): words for name, words in SHELL_WORDS.findall((ROOT / "crates/book_script/src/refusals.rt").read_text())}


def version():
    return re.search(r'^version = "([^"]+)"', (ROOT / "rust/Cargo.toml").read_text(), re.M)[1]
