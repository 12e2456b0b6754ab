#!/usr/bin/env python3
"""Writes the static library ouriscado_c, once: for each exported function of crate ouriscado an export of the same name, with its clauses, that calls it.

usage: tools/porting/static_library.py        at the top of the repository; then rt fmt in crates/ouriscado_c
"""
import re
import sys
from pathlib import Path

sys.dont_write_bytecode = True
ROOT = Path(__file__).resolve().parents[2]
sys.path.insert(0, str(ROOT / "host"))
from boundary.exports import FUNCTION, Function

FROM, TO = ROOT / "crates/ouriscado/src", ROOT / "crates/ouriscado_c/src"
GHOST = re.compile(r"^ghost use ([^{;]+)\.\{([^}]*)\};", re.M)
WORD = re.compile(r'[^\s(){}.;,@"«»`]+')


def head_of(text, start):
    """A function up to its body: attributes, parameters and clauses."""
    lines = text[start:].split("\n")
    lines = lines[next(i for i, line in enumerate(lines) if not line.startswith("//")):]
    end = next(i for i, line in enumerate(lines) if line == "{" or line.endswith(") -> u32 {"))
    return [line for line in lines[:end] if not line.startswith("#[")]


def export(function, head):
    """An export: the head of the function, and a call of it."""
    handed = ", ".join(p.name for p in function.parameters)
    call = f"    ouriscado::{function.name}({handed})"
    if len(call) > 100:
        call = f"    ouriscado::{function.name}(\n" + "".join(f"        {p.name},\n" for p in function.parameters) + "    )"
    return "\n".join(["#[unsafe(no_mangle)]", *head, "{", call, "}"])


def brought(text, said):
    """The `ghost use` lines of a file, with the names that some clauses use."""
    words = set(WORD.findall(said))
    for module, items in GHOST.findall(text):
        kept = [item for item in map(str.strip, items.split(",")) if used(item, words)]
        if kept:
            yield f"ghost use {module}.{{{', '.join(kept)}}};"


def used(item, words):
    name = item.split(" as ")[-1]
    return any(part in words for part in name.split("◌") if part)


def main():
    TO.mkdir(parents=True)
    modules = []
    for path in sorted(FROM.glob("*.rt")):
        text = path.read_text()
        found = list(FUNCTION.finditer(text))
        if not found:
            continue
        modules.append(path.stem)
        heads = [head_of(text, m.start()) for m in found]
        exports = [export(Function(m), head) for m, head in zip(found, heads)]
        said = "\n".join(line for head in heads for line in head)
        lines = [f"// The functions of crate ouriscado in src/{path.name}, for C: each export calls the one of its name, whose comment says what it does.",
                 *brought(text, said), "", "\n\n".join(exports), ""]
        (TO / path.name).write_text("\n".join(lines))
    (TO / "lib.rt").write_text("\n".join([
        "// The static library: what C and other languages call. Its functions are those of crate ouriscado, with the same clauses.",
        "#![tactic(auto)]", "", *(f"mod {name};" for name in modules), ""]))
    print(f"{sum(1 for _ in TO.glob('*.rt'))} files in {TO.relative_to(ROOT)}")


if __name__ == "__main__":
    main()
