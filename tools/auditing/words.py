"""The words of antt, and a walk through them that finds the names that aren't bound.

A name is a run of any characters but spaces and ( ) { } . ; , @ ". A dot with no space behind it comes before a field, any other ends the binders of a λ.
"""
import re
from collections import namedtuple

NAME = r'[^\s(){}.;,@"]+'
WORD = re.compile(rf'--(?=\s|$).*|[(){{}}.;,@"]|{NAME}')
TYPE = re.compile(r"(pub )?(data|record) ")
MARKS = ("pub", "unfoldable", "abbrev", "data", "record", "module")

# A word with its place; `tight` where no space follows.
Word = namedtuple("Word", "text row column tight")
# A use of a name, by its place; `target` is what it means.
Use = namedtuple("Use", "row column length target")


def words_of(lines):
    """The words of some lines, without comments."""
    found = []
    for row, line in enumerate(lines):
        for match in WORD.finditer(line):
            if not match.group().startswith("--"):
                found.append(Word(match.group(), row, match.start(), line[match.end() : match.end() + 1].strip() != ""))
    return found


def top_level(words, text):
    """The index of the first word of a text that stands in no parentheses."""
    depth = 0
    for i, word in enumerate(words):
        depth += (word.text in "({") - (word.text in ")}")
        if depth == 0 and word.text == text:
            return i
    return len(words)


def chunks(code):
    """The words by the lines that begin them: a signature and clauses, or a heading and what stands under it."""
    words = words_of(code)
    columns = [next((w.column for w in words if w.row == row), None) for row in range(len(code))]
    first = next(row for row, column in enumerate(columns) if column is not None)
    headed = code[0].startswith("module _") or TYPE.match(code[0])
    base = next((c for c in columns[1:] if c is not None), 0) if headed else columns[first]
    starts = [first] + [row for row in range(first + 1, len(code)) if columns[row] == base]
    return [[w for w in words if start <= w.row < end] for start, end in zip(starts, starts[1:] + [len(code)])]


def after_name(chunk):
    """A signature without its marks and the name that it declares."""
    return [word for word in chunk if word.text not in MARKS][1:]


class Walk:
    """A walk through words. Parentheses end the scope of what is bound in them. `source` says what names mean."""

    def __init__(self, source, bound=()):
        self.source, self.scopes, self.lets, self.found = source, [set(bound)], [], []

    def declaration(self, code):
        """A definition, a type, or a statement: each use of a name that isn't bound in it."""
        first, *others = chunks(code)
        self.expression(after_name(first))
        for chunk in others:
            if TYPE.match(code[0]):
                self.field(chunk)
            elif code[0].startswith("module _"):
                self.expression(after_name(chunk))
            else:
                self.clause(chunk)
        return self.found

    def field(self, chunk):
        """A field or a constructor; fields below it can name it."""
        self.scopes.append(set())
        self.expression(after_name(chunk))
        self.scopes.pop()
        self.bind(next(word for word in chunk if word.text != "pub"))

    def clause(self, words):
        """Patterns, on the left, bind what is no constructor."""
        equals = top_level(words, "=")
        self.scopes.append(set())
        for word in words[1:equals]:
            if self.source.is_constructor(word.text):
                self.name(word)
            elif word.text not in "(){},":
                self.bind(word)
        self.expression(words[equals + 1 :])
        self.scopes.pop()

    def expression(self, words):
        i = 0
        while i < len(words):
            i = self.step(words, i)

    def step(self, words, i):
        """One word, or a few that bind; the index behind them."""
        word = words[i]
        if word.text in ("(", "{"):
            return self.opened(words, i + 1)
        if word.text in (")", "}"):
            self.scopes.pop()
        elif word.text == "." and word.tight:
            return i + 2
        elif word.text == "λ":
            return self.binders(words, i + 1)
        elif word.text == "let":
            return self.let(words, i + 1)
        elif word.text == "in":
            self.scopes[-1].update(self.lets.pop())
        elif word.text not in ".;,@" and not (i + 1 < len(words) and words[i + 1].text == "="):
            self.name(word)
        return i + 1

    def opened(self, words, i):
        """Behind a parenthesis: names with a type, as in `(x y : A)`, are bound from here on, also behind the group."""
        bound = self.typed(words, i)
        for name in bound:
            self.bind(name)
        self.scopes.append(set())
        return i + len(bound)

    def typed(self, words, i):
        """The names of a group `(x y : A)` whose first name has this index; none where it is no such group."""
        end = i
        while end < len(words) and words[end].text not in ".;,@(){}:=→":
            end += 1
        return words[i:end] if end < len(words) and words[end].text == ":" else []

    def binders(self, words, i):
        """The binders of a λ, up to its dot."""
        while words[i].text != "." or words[i].tight:
            if words[i].text == "(" and self.typed(words, i + 1):
                end = i + top_level(words[i:], ")")
                self.expression(words[i : end + 1])
                i = end
            elif words[i].text not in "(),":
                self.bind(words[i])
            i += 1
        return i + 1

    def let(self, words, i):
        """The names of a `let`, which are bound behind its `in`."""
        end = i + top_level(words[i:], "=")
        self.lets.append({word.text for word in words[i:end] if word.text not in "(),"})
        return end + 1

    def bind(self, word):
        self.scopes[-1].add(word.text)

    def name(self, word):
        meant = self.source.meaning(word.text, self.scopes)
        if meant:
            self.found.append(Use(word.row, word.column, len(word.text), meant))
