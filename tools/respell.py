#!/usr/bin/env python3
"""Brings the definitions and lemmas of crates/ to snake case, once, after port.py.

usage: tools/respell.py [--check]        at the top of the repository

A name's humps and dashes become underscores (`ulebLen`: `uleb_len`). Types and modules keep their capitals. Functions of src/, labels that Rattle makes, strings,
inputs and outputs are not touched. In .rt files clauses, `ghost use` lines and comments turn.
"""

import collections
import os
import re
import sys

NAME = r'[^\s(){}.;,@"«»`]+'
MARKS = r"(?:(?:pattern|unfoldable|abbrev|pub|axiom|private) +)*"
DECLARED = re.compile(rf"(?m)^ *{MARKS}({NAME})(?: \{{[^{{}}\n]*\}})* :(?= |$)")
GOAL = re.compile(r"(?m)^ *(\S+) : tie\.")
RECORD = re.compile(r"^( *)(?:pub )?record ")
FIELD = re.compile(rf"(?m)^ +(?:pub )?({NAME}) :(?= |$)")
HUMP = re.compile(r"(?<=[a-z0-9])([A-Z])")
# Words that antt keeps for tactics, and names that would fall together.
PICKED = {"ground": "body_ground"}
# Lemmas and a local that have a definition's new name already: they end in `_lem`.
STANDING = set("append_at load_told made_after at_key given_back where_below rest_read read_answer".split())


def antt_files(root):
    for folder, dirs, files in os.walk(root):
        dirs[:] = sorted(d for d in dirs if d not in ("out", ".git"))
        for f in sorted(files):
            yield os.path.join(folder, f)


def bare(text):
    """The text without strings and comments."""
    return re.sub(r'"(?:[^"\\\n]|\\.)*"|--[^\n]*', " ", text)


def fields_of(text):
    """The fields of the records that the text declares: the lines that stand deeper than the record's own, behind its `where`."""
    found, depth, inside = set(), None, False
    for line in text.split("\n"):
        if depth is not None and line.strip() and len(line) - len(line.lstrip()) <= depth:
            depth = None
        m = RECORD.match(line)
        if m and " = " not in line and "= record" not in line:
            depth, inside = len(m[1]), False
        if depth is not None:
            if inside:
                f = FIELD.match(line)
                if f:
                    found.add(f[1])
            inside = inside or line.rstrip().endswith("where")
    return found


def gather(root):
    """Names declared in specs/ and proofs/: all, those of specs/, the fields, and every word that stands anywhere."""
    names, fields, words = set(), set(), set()
    for path in antt_files(root):
        if not path.endswith(".antt"):
            continue
        with open(path, encoding="utf-8") as f:
            text = bare(f.read())
        mine = set(DECLARED.findall(text))
        if path.endswith("Proof.antt"):
            made = set(GOAL.findall(text))
            mine -= {it for it in made if it.split("-")[0] not in ("start",) and re.search(rf"(?m)^ *{re.escape(it)} : tie\.(Need|invariant|decreases|InvT|MeasureT)", text)}
            mine = {it for it in mine if not it.endswith("-spec")}
        names |= mine
        fields |= fields_of(text)
        words |= set(re.findall(NAME, text))
    return names, fields, words


def snake(name):
    return HUMP.sub(lambda m: "_" + m[1].lower(), name)


def respelled(name):
    if not name[0].islower():
        return name
    if name in PICKED:
        return PICKED[name]
    return "_".join(snake(p) for p in name.split("-"))


def table_of(root):
    """Old names with their new ones. Of two that would fall together a definition has the plain name, a lemma ends in `_lem`, a field in `_holds`."""
    names, fields, words = gather(root)
    table = {name: respelled(name) for name in names}
    table = {old: new for old, new in table.items() if new != old}
    standing = {name for name in names if name not in table} - STANDING
    meant = {new for old, new in table.items() if "-" not in old} | standing
    for old, new in table.items():
        if "-" in old and new in meant:
            table[old] = new + ("_holds" if old in fields else "_lem")
    met = collections.defaultdict(list)
    for old, new in table.items():
        met[new].append(old)
    clashes = {new: olds for new, olds in met.items() if len(olds) > 1 or new in standing}
    return table, clashes, words


QUIET = re.compile(r'"(?:[^"\\\n]|\\.)*"|--[^\n]*')


BARE = re.compile(rf'(?<![^\s(){{}};,@"«»`])({"|".join(sorted(STANDING))})(?![^\s(){{}};,@"«»`])')


# An alias or a local with a hump, which no line declares with its type.
LOCAL = re.compile(r"[a-z]+[a-z0-9_]*[A-Z]\S*")


def turned(code, table):
    """The code with its names in the new spelling. Behind a dot `_lem` would be wrong: a step that Rattle names stands there, or a field."""

    def one(m):
        new = table.get(m[0]) or (respelled(m[0]) if LOCAL.fullmatch(m[0]) else m[0])
        behind = m.start() > 0 and code[m.start() - 1] == "."
        return respelled(m[0]) if behind and new != m[0] and new.endswith("_lem") else new

    code = BARE.sub(lambda m: m[0] + "_lem", code)
    return re.sub(NAME, one, code)


def turned_comment(text, table):
    """Names in a comment's code spans, and bare words with a hump."""
    text = re.sub(r"`[^`]*`", lambda m: turned(m[0], table), text)
    return re.sub(r"\b[a-z]\w*[a-z0-9][A-Z]\w*\b", lambda m: table.get(m[0], m[0]), text)


def antt(text, table):
    out, at = [], 0
    for m in QUIET.finditer(text):
        out.append(turned(text[at:m.start()], table))
        out.append(m[0] if m[0][0] == '"' else turned_comment(m[0], table))
        at = m.end()
    out.append(turned(text[at:], table))
    return "".join(out)


GHOST = re.compile(r"ghost use [^;]*;|//[^\n]*|\b(?:requires|ensures)\*? *(?:\w+ *)?\{|\bghost \w+ *: *\{")


def clause_end(text, at):
    depth = 1
    while depth:
        depth += {"{": 1, "}": -1}.get(text[at], 0)
        at += 1
    return at


def rattle(text, table):
    out, at = [], 0
    while True:
        m = GHOST.search(text, at)
        if not m:
            out.append(text[at:])
            return "".join(out)
        out.append(text[at:m.start()])
        if m[0].startswith("//"):
            out.append(turned_comment(m[0], table))
            at = m.end()
        elif m[0].startswith("ghost use"):
            out.append(turned(m[0], table))
            at = m.end()
        else:
            end = clause_end(text, m.end())
            out.append(m[0] + turned(text[m.end():end], table))
            at = end


def main():
    check = "--check" in sys.argv[1:]
    table, clashes, words = table_of("crates")
    for new, olds in sorted(clashes.items()):
        print(f"together: {new}: {' '.join(olds)}")
    changed = 0
    for path in antt_files("crates"):
        if path.endswith(".antt"):
            turn = antt
        elif path.endswith(".rt"):
            turn = rattle
        else:
            continue
        with open(path, encoding="utf-8") as f:
            old = f.read()
        new = turn(old, table)
        if new != old:
            changed += 1
            if not check:
                with open(path, "w", encoding="utf-8") as f:
                    f.write(new)
    print(f"respell: {len(table)} names, {len(clashes)} fall together, {changed} files")
    if "--table" in sys.argv[1:]:
        for old, new in sorted(table.items()):
            print(f"{old}\t{new}")


if __name__ == "__main__":
    main()
