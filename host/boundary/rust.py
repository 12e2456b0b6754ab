"""The Rust files: declarations with a function over slices for each, the refusals as an enum, the constants."""
import textwrap

from boundary.exports import CONSTANTS

WIDTH = 140  # of rustfmt.toml


def documented(indent, text):
    """A documentation comment. No line of it begins with a minus, which would begin a list."""
    joined = text.replace(" - ", "\u00a0-\u00a0")
    lines = textwrap.wrap(joined, WIDTH, initial_indent=f"{indent}/// ", subsequent_indent=f"{indent}/// ", break_on_hyphens=False)
    return [l.replace("\u00a0", " ") for l in lines]


def type_of(p):
    item = f"[{p.item}]" if p.slice else f"[{p.item}; {p.len}]" if p.len else p.item
    return f"{p.ref or ''}{p.mut or ''}{item}"


def raw(p):
    """A parameter's declarations as the library has them: of a slice two, pointer and length."""
    if p.slice:
        return [f"{p.name}: *{'mut' if p.mut else 'const'} {p.item}", f"{p.name}_len: usize"]
    return [f"{p.name}: {type_of(p)}"]


def passed(p):
    return [f"{p.name}.{'as_mut_ptr' if p.mut else 'as_ptr'}()", f"{p.name}.len()"] if p.slice else [p.name]


def listed(indent, start, items, end):
    """A list in parentheses, on one line where it fits, else an item a line."""
    whole = f"{indent}{start}({', '.join(items)}){end}"
    if len(whole) <= WIDTH:
        return [whole]
    return [f"{indent}{start}("] + [f"{indent}    {item}," for item in items] + [f"{indent}){end}"]


def call(f):
    """The body of a function over slices."""
    items = [a for p in f.parameters for a in passed(p)]
    whole = f"    unsafe {{ raw::{f.name}({', '.join(items)}) }}"
    if len(whole) <= WIDTH:
        return [whole]
    return ["    unsafe {"] + listed("        ", f"raw::{f.name}", items, "") + ["    }"]


def declarations(made, functions):
    out = [f"//! The exported functions. {made}", "//!",
           "//! Each function over slices is sound: pointer and length are those of a slice that is lent for the call, what is written is",
           "//! lent to nobody else, and the library keeps no pointer.", "#![allow(clippy::too_many_arguments)]", "",
           "/// The functions as the library defines them.", "pub mod raw {", '    extern "C" {']
    wrappers = []
    for f in functions:
        arrow = f" -> {f.result}" if f.result else ""
        out += documented("        ", f.text)
        out += listed("        ", f"pub fn {f.name}", [r for p in f.parameters for r in raw(p)], f"{arrow};")
        given = [f"{p.name}: {type_of(p)}" for p in f.parameters]
        wrappers += ["", *documented("", f.text), "#[inline]", *(["#[must_use]"] if f.result else [])]
        wrappers += listed("", f"pub fn {f.name.removeprefix('ouriscado_')}", given, f"{arrow} {{") + call(f) + ["}"]
    return "\n".join(out + ["    }", "}"] + wrappers + [""])


def camel(name):
    return "".join(w.capitalize() for w in name.split("_"))


def enum(made, refusals):
    named = [r for r in refusals if r.name]
    out = [f"//! Why a call is turned back. {made}", "", "/// A refusal, by the number that the library answers.",
           "#[derive(Clone, Copy, Debug, PartialEq, Eq, Hash)]", "#[non_exhaustive]", "pub enum Refusal {"]
    for r in refusals:
        if r.name:
            out += documented("    ", f"{r.number}: {r.cause}.") + ["    ///"] + documented("    ", f"Operator: {r.operator}.")
            out += [f"    {camel(r.name)},"]
        else:
            out += [f"    // {r.number}: {r.cause}."]
    out += ["    /// A number that this crate doesn't know: the library is of another version.", "    Unknown(u32),", "}", "",
            "impl Refusal {", "    /// Every refusal that has a name, in the order of the numbers.",
            "    pub const ALL: &'static [Refusal] = &["]
    out += [f"        Refusal::{camel(r.name)}," for r in named]
    out += ["    ];", "", "    /// The number that the library answers.", "    #[must_use]", "    pub const fn number(self) -> u32 {",
            "        match self {"]
    out += [f"            Refusal::{camel(r.name)} => {r.number}," for r in named] + ["            Refusal::Unknown(number) => number,"]
    out += ["        }", "    }", "", "    /// What the refusal says.", "    #[must_use]", "    pub const fn text(self) -> &'static str {",
            "        match self {"]
    out += [f'            Refusal::{camel(r.name)} => "{r.text}",' for r in named]
    out += ['            Refusal::Unknown(_) => "a refusal that this version doesn\'t know",']
    return "\n".join(out + ["        }", "    }", "}", ""])


def limits(made):
    out = ["//! Sizes, kinds and limits, as in the C header.", f"//! {made}"]
    for name, value, kind, text in (c for group in CONSTANTS.values() for c in group):
        shown = f"{value:_}" if value >= 10_000 else str(value)
        out += ["", f"/// {text[0].upper()}{text[1:]}.", f"pub const {name}: {kind} = {shown};"]
    return "\n".join(out + [""])
