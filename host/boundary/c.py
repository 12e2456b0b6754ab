"""The C headers: their text stands in the templates *.h.in beside this file. A template's line that begins with @ asks for something made:

@call NAME            a function's comment and declaration; indented lines after it join the comment, those of eight spaces or more as they stand.
                      Behind one of the book's stand the inline functions that take the state as one struct
@refusals book        an enum's refusals, those that the book's calls name; @refusals others, the rest
@constants GROUP      constants
@version              the version's macros
@texts                the cases of a switch that gives each refusal's text
"""
import re
import textwrap
from pathlib import Path

from boundary.exports import BOOK, CONSTANTS, CORE, fail, version

TYPES = {"u8": "uint8_t", "u16": "uint16_t", "u32": "uint32_t", "u64": "uint64_t", "usize": "size_t", "bool": "bool"}
WIDTH = 110
LENGTHS = {"free": "OURISCADO_FREE_HEADS", "counts": "OURISCADO_COUNT_WORDS", "reserve": "OURISCADO_DESKS", "ceiling": "OURISCADO_DESKS"}


def filled(first, text):
    """Text in lines of a comment: the first begins with `first`, the others stand under its text, the comment's end is behind a word."""
    joined = text.replace(" */", "\u00a0*/")
    lines = textwrap.wrap(joined, WIDTH, initial_indent=first, subsequent_indent=" " * len(first), break_on_hyphens=False)
    return [l.replace("\u00a0", " ") for l in lines]


def parameter(p):
    """A parameter's declarations: of a slice two, pointer and length."""
    const = "" if p.mut or not p.ref else "const "
    name = "class_" if p.name == "class" else p.name  # a word of C++
    if p.slice:
        pointer = f"(*{name})[{p.each[0]}]" if p.each else f"*{name}"
        return [f"{const}{TYPES[p.number]} {pointer}", f"size_t {name}_len"]
    if p.len:
        return [f"{const}{TYPES[p.number]} {name}[{LENGTHS.get(name, p.len)}]"]
    return [f"{const}{TYPES[p.number]} {'*' if p.ref else ''}{name}"]


def listed(indent, start, items, end):
    """A list in parentheses, on one line where it fits, else filled under its start."""
    whole = f"{indent}{start}({', '.join(items)}){end}"
    if len(whole) <= WIDTH:
        return [whole]
    lines = [f"{indent}{start}(", f"{indent}    {items[0]}"]
    for item in items[1:]:
        if len(f"{lines[-1]}, {item}){end}") <= WIDTH:
            lines[-1] += f", {item}"
        else:
            lines[-1] += ","
            lines.append(f"{indent}    {item}")
    return lines[:-1] + [f"{lines[-1]}){end}"]


def declaration(function):
    given = [d for p in function.parameters for d in parameter(p)] or ["void"]
    return listed("", f"{TYPES[function.result] if function.result else 'void'} {function.name}", given, ";")


def of_state(function):
    """The inline functions over one of the book's that take its state as one struct: of those that are lent a list of desks ouriscado_desks_NAME; of
    the core's ouriscado_desk_NAME, where they are told a desk, and for a book without desks ouriscado_NAME."""
    if function.name.startswith(BOOK):
        return over_struct(function, function.name.replace(BOOK, "ouriscado_desks_"), {})
    told = any(p.name == "desk" for p in function.parameters)
    of_desk = over_struct(function, function.name.replace(CORE, "ouriscado_desk_"), {}) if told else []
    return of_desk + over_struct(function, function.name.replace(CORE, "ouriscado_"), {"desk": "0"})


def over_struct(function, name, fixed):
    """An inline function of a name over one of the book's, with its state as one struct, and some parameters fixed."""
    parts = [p for p in function.parameters if p.name in ("mark", "free", "counts")]
    state = f"{'' if any(p.mut for p in parts) else 'const '}struct ouriscado_state *state"
    given, handed = [], []
    for p in function.parameters:
        declared = parameter(p)
        if p in parts:
            given += [state] if p is parts[0] else []
            handed.append(f"{'&' if p.ref and not p.len else ''}state->{p.name}")
        elif p.name in fixed:
            handed.append(fixed[p.name])
        else:
            given += declared
            handed += [re.search(r"(\w+)(?:\[\w+\])?$", d)[1] for d in declared]
    return listed("", f"static inline {TYPES[function.result]} {name}", given, "") + ["{"] + listed("    ", f"return {function.name}", handed, ";") + ["}"]


def call(function, more, names):
    """A function's comment, with what the template adds, and its declaration. Of the book's calls the refusals are named too, and one with a struct follows."""
    paragraphs = [function.text] + [p.rstrip() for p in re.split(r"\n\s*\n", "\n".join(more)) if p.strip()]
    if function.of_book:
        paragraphs.append("Refusals: " + ", ".join(f"{names[n]} ({n})" for n in function.refuses) + ".")
    paragraphs[-1] += " */"
    out = filled("/* ", paragraphs[0])
    for paragraph in paragraphs[1:]:
        out += ([""] if function.of_book else []) + in_comment(paragraph)
    return out + declaration(function) + (of_state(function) if function.of_book else [])


def in_comment(paragraph):
    """A paragraph's lines in a comment: filled, or as they stand where they are code."""
    if paragraph.lstrip("\n").startswith("        "):
        return [line.removeprefix(" ") for line in paragraph.split("\n") if line]
    return filled("   ", " ".join(paragraph.split()))


def refusal(r):
    if not r.name:
        return filled("    /* ", f"{r.number}: {r.cause}. */")
    said = f"{r.cause[0].upper()}{r.cause[1:]}."
    return filled("    /* ", said) + filled("       ", f"Operator: {r.operator}. */") + [f"    OURISCADO_{r.name} = {r.number},"]


def text_case(r):
    """A case of a switch: the refusal's text."""
    return f'    case {r.number}: return "{r.text}";'


def constant(name, value, kind, text):
    shown = f"UINT64_C({value})" if kind == "u64" else str(value)
    return filled(f"#define OURISCADO_{name:17} {shown:>13} /* ", f"{text} */")


def version_macros():
    numbers = version().split(".")
    out = [f"#define OURISCADO_VERSION_{part} {n}" for part, n in zip(("MAJOR", "MINOR", "PATCH"), numbers)]
    return out + [f'#define OURISCADO_VERSION "{version()}"']


def refusals_of(which, functions, refusals):
    of_book = {n for f in functions if f.of_book for n in f.refuses}
    return [l for r in refusals if (r.number in of_book) == (which == "book") for l in refusal(r)]


def header(template, made, functions, refusals):
    """A header, and the names of the functions that it declares."""
    lines = (Path(__file__).parent / template).read_text().replace("@MADE@", made).replace("@VERSION@", version()).split("\n")
    by_name = {f.name: f for f in functions}
    names = {r.number: f"OURISCADO_{r.name}" for r in refusals}
    out, called, i = [], [], 0
    while i < len(lines):
        word, _, what = lines[i].partition(" ")
        i += 1
        if word == "@call":
            if what not in by_name:
                fail(f"{template} asks for {what}, which isn't exported")
            end = next(k for k in range(i, len(lines)) if lines[k] and not lines[k].startswith("    "))
            out += call(by_name[what], lines[i:end], names) + [""]
            called.append(what)
            i = end
        elif word == "@refusals":
            out += refusals_of(what, functions, refusals)
        elif word == "@constants":
            out += [l for c in CONSTANTS[what] for l in constant(*c)]
        elif word == "@texts":
            out += [text_case(r) for r in refusals if r.name]
        elif word == "@version":
            out += version_macros()
        else:
            out.append(lines[i - 1])
    return "\n".join(out), called
