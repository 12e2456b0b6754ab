#!/usr/bin/env python3
"""Gives the proofs by hand (Proof.antt) the names of goals, places and steps that today's Rattle makes.

usage: tools/porting/walks.py LANDED PORTED NAMES CRATE[/FUNCTION]..

LANDED is a checkout of the repository as it was before port.py, whose proofs have the old names; PORTED one of the commit in which port.py and
respell.py ran, whose proofs are turned; NAMES a folder with CRATE/names.json, as `rattle check --generated NAMES/CRATE --old-names` writes it.
Writes the proofs of the crates below the folder that it runs in. A goal's answer takes the goal's name. An arm of a match is one record today,
with the pattern's names for fields, where it was several: chains of `.before` are walked, place by place. What it does not know is said.
"""

import json
import os
import re
import sys

NAME = r'[^\s(){}.;,@"«»]+'
WORD = re.compile(NAME)
OF_START = ("args", "requires", "pre", "ranges", "lifetimes", "well_formed")
QUIET = re.compile(r'"(?:[^"\\\n]|\\.)*"|--[^\n]*')
SIGNATURE = re.compile(rf"^( *)(?:(?:abbrev|pub|unfoldable) +)*({NAME})((?: \{{[^{{}}\n]*\}})*) :(?= |$)(.*)$")
MODULE = re.compile(r"^( *)module _ (.*) where$")
BINDER = re.compile(r"\(((?:[^\s(){}.;,:]+ )+): tie\.(\S+?)(?: [^()]*)?\)")


def kebab(it):
    it = it.replace("_", "-").lower()
    return it[:-4] if it.endswith("-lem") else it


class Exact(int):
    """A place within an arm, at a goal that is asked there: elsewhere the arm's whole record stands for it."""


class Walk:
    """What rattle says of a function: its goals, and the places of its code with the steps between them."""

    def __init__(self, entry):
        self.needs = {kebab(a): i for i, (a, b) in enumerate(entry["needs"])}
        self.goals = [b for a, b in entry["needs"]]
        self.asked_at = [a for a, b in entry["asked_at"]]
        self.loops = {kebab(l[0][0]): l[0][1] for l in entry["loops"]}
        self.old = [kebab(p[0]) for p in entry["places"]]
        self.index = {n: i for i, n in reversed(list(enumerate(self.old)))}
        self.new = entry["places_by_name"]
        raw = {p[0]: i for i, p in reversed(list(enumerate(entry["places"])))}
        self.parent = [raw.get(p[1]) for p in entry["places"]]
        self.step = [(kebab(p[2][0]), p[2][1]) for p in entry["places"]]
        self.inner = [dict(p[4]) for p in entry["places"]]
        self.arms = entry["arms"]
        self.params = entry["params"]
        self.callee = [p[3] for p in entry["places"]]

    def record(self, i):
        """The place whose record stands for a place today: that of the whole arm."""
        if isinstance(i, Exact):
            return int(i)
        best = i
        for r in range(len(self.old)):
            if self.span(r) > self.span(best) and i in [self.up(r, n) for n in range(self.span(r))]:
                best = r
        return best

    def span(self, i):
        return self.arms[i][1] if self.arms[i] else 1

    def up(self, i, n):
        for _ in range(n):
            i = None if i is None else self.parent[i]
        return i

    def follow(self, at, fields):
        """Where fields lead from the place at: the place, and the fields behind its `before`s. The older Rattle had more places than today's
        (where a `&mut` was lent to be read), so a step's name says more than the count of the `before`s."""
        k = 0
        while k < len(fields) and fields[k] == "before":
            k += 1
        rest, way = fields[k:], [at]
        while self.parent[way[-1]] is not None:
            way.append(self.parent[way[-1]])
        if not rest:
            return way[min(k, len(way) - 1)], rest
        if rest[0] in OF_START and "start" in self.old and self.index["start"] in way:
            return self.index["start"], rest
        found = [i for i, p in enumerate(way) if self.step[p][0] == kebab(rest[0])]
        found = [i for i in found if i <= k] or found
        if found:
            return way[max(found)] if max(found) <= k else way[min(found)], rest
        return way[min(k, len(way) - 1)], rest

    def chain(self, start, fields, target=None):
        """The fields as they are written today, or None; where target is known, the way there."""
        at, rest = (target, []) if target is not None else self.follow(start, fields)
        out, here = [], self.record(start)
        while True:
            covered = [self.up(here, n) for n in range(self.span(here))]
            if rest and at in covered and (rest[0] not in OF_START or at == here):
                return self.last(here, at, rest, out)
            if not rest and at == here:
                return out
            if at in covered and not rest:
                return out
            out.append("before")
            here = self.up(here, self.span(here))
            if here is None:
                return None

    def last(self, here, at, rest, out):
        step, path = kebab(rest[0]), rest[1:]
        path = ["invariant" if p == "inv" and step.startswith("loop") else p for p in path]
        if rest[0] == "pre":
            return out + ["requires", *path]
        if self.arms[here]:
            best = None
            for new, old, taken in self.arms[here][2]:
                if kebab(old) == step and path[: len(taken)] == taken and (best is None or len(taken) > len(best[1])):
                    best = (new, taken)
            if best is None:
                return None
            if path and not best[1]:
                return None
            return out + [self.arms[here][0], best[0], *path[len(best[1]):]]
        if step != self.step[at][0]:
            return out + rest  # args, ranges and the like
        if path and (step.startswith("if") or step.endswith("-test")):
            path = [{"taken": "true", "left": "false", "branch": "branch-raw"}.get(path[0], path[0]), *path[1:]]
        if path and path[0] in self.inner[at]:
            path = [self.inner[at][path[0]], *path[1:]]
        if len(path) > 1 and path[0] in ("new", "last") and self.callee[at]:
            path = self.after(self.callee[at], path)
        return out + [self.step[at][1], *path]

    def after(self, callee, path):
        """What a call left behind a `&mut` goes by the parameter's name, not by its place."""
        k = 1
        while k < len(path) and path[k] == "1":
            k += 1
        names = self.params.get(callee, [])
        if k < len(path) and path[k] == "0" and k - 1 < len(names):
            return ["new", names[k - 1], *path[k + 1:]]
        return path


class Text:
    def __init__(self, walk, said):
        self.walk, self.said = walk, said
        self.functions = {}  # names that stand for a place
        self.takes = {}  # names with the place that their first argument stands for

    def meant(self, name, start, fields, later):
        """The place that a name is bound to by `before`s from start, as what follows uses it."""
        walk, way = self.walk, [start]
        while walk.parent[way[-1]] is not None:
            way.append(walk.parent[way[-1]])
        for m in re.finditer(rf"(?<![^\s(){{}},])({NAME}) {re.escape(name)}(?![^\s(){{}},;])", later):
            if self.takes.get(m[1]) in way:
                return self.takes[m[1]]
        k = len(fields)
        near = None
        for m in re.finditer(rf"(?<![^\s(){{}},;]){re.escape(name)}(?=\.)", later):
            used, _ = self.fields(later, m.end())
            j = 0
            while j < len(used) and used[j] == "before":
                j += 1
            if j == len(used):
                continue
            if used[j] in OF_START and j == 0:
                return walk.index["start"]
            found = [i for i, p in enumerate(way) if walk.step[p][0] == kebab(used[j]) and i <= k + j]
            if found and j == 0:
                return way[max(found)]
            if found and (near is None or j < near[0]):
                near = (j, max(found))
        if near:
            return way[max(0, near[1] - near[0])]
        return way[min(k, len(way) - 1)]

    def place_of(self, name):
        name = name.rstrip(")")
        if kebab(name) in self.walk.index:
            return self.walk.index[kebab(name)]
        return None

    def turn_chains(self, text, env):
        """The text with each chain turned. env: variables with their places, or with what they stand for."""
        out, at = [], 0
        pos = 0
        while pos < len(text):
            q = QUIET.match(text, pos)
            if q:
                pos = q.end()
                continue
            if text[pos] == "(":
                end = self.close(text, pos)
                if end is None:
                    pos += 1
                    continue
                fields, stop = self.fields(text, end)
                inside = text[pos + 1:end - 1]
                value = self.value(inside, env)
                turned = "(" + self.turn_chains(inside, env) + ")"
                if fields and value is not None:
                    out.append(text[at:pos])
                    out.append(turned + self.write(value, fields, text[pos:stop]))
                    at = pos = stop
                else:
                    out.append(text[at:pos])
                    out.append(turned)
                    at = pos = end
                continue
            m = WORD.match(text, pos)
            if not m or (pos > 0 and text[pos - 1] == "."):
                pos = m.end() if m else pos + 1
                continue
            fields, stop = self.fields(text, m.end())
            if m[0] in env and (fields or isinstance(env[m[0]], tuple)):
                value = env[m[0]]
                out.append(text[at:pos])
                if isinstance(value, tuple) and value[0] is None:
                    base, new = self.walk.chain(value[1], value[2]), self.walk.chain(value[1], value[2] + fields)
                    if new is None or new[: len(base)] != base:
                        self.said.append(f"{m[0]}.{'.'.join(fields)}: no field today")
                        new = base + fields
                    out.append(m[0] + "".join("." + f for f in new[len(base):]))
                elif isinstance(value, tuple):
                    head, place, before = value
                    new = self.walk.chain(place, before + fields)
                    if new is None:
                        self.said.append(f"{head}.{'.'.join(before + fields)} from {self.walk.old[place]}: no field today")
                        new = before + fields
                    out.append(head + "".join("." + f for f in new))
                else:
                    to = None
                    if fields and set(fields) == {"before"}:
                        asker = re.search(rf"({NAME}) \Z", text[max(0, pos - 60):pos])
                        to = self.takes.get(asker[1]) if asker else None
                    new = self.walk.chain(value, [], to) if to is not None else None
                    out.append(m[0] + ("".join("." + f for f in new) if new is not None else self.write(value, fields, text[pos:stop])))
                at = pos = stop
                continue
            if fields and m[0] in self.functions and self.functions[m[0]][1] == 0:
                out.append(text[at:pos])
                out.append(m[0] + self.write(self.functions[m[0]][0], fields, text[pos:stop]))
                at = pos = stop
                continue
            pos = stop
        out.append(text[at:])
        return "".join(out)

    def write(self, place, fields, was):
        new = self.walk.chain(place, fields)
        if new is None:
            self.said.append(f"{was[:80]} from {self.walk.old[place]}: no field today")
            new = fields
        return "".join("." + f for f in new)

    @staticmethod
    def close(text, pos):
        depth, i = 0, pos
        while i < len(text):
            q = QUIET.match(text, i)
            if q:
                i = q.end()
                continue
            if text[i] in "([{":
                depth += 1
            elif text[i] in ")]}":
                depth -= 1
                if depth == 0:
                    return i + 1
            i += 1
        return None

    @staticmethod
    def fields(text, pos):
        found = []
        while pos < len(text) and text[pos] == ".":
            m = WORD.match(text, pos + 1)
            if not m:
                break
            found.append(m[0])
            pos = m.end()
        return found, pos

    def value(self, inside, env):
        """The place that an expression in parentheses stands for, or None."""
        inside = inside.strip()
        m = WORD.match(inside)
        if not m:
            if inside.startswith("("):
                end = self.close(inside, 0)
                fields, stop = self.fields(inside, end)
                if stop == len(inside):
                    v = self.value(inside[1:end - 1], env)
                    if v is not None:
                        at, rest = self.walk.follow(v, fields)
                        return at if not rest else None
            return None
        if m[0] in self.functions and m.end() < len(inside):
            return self.functions[m[0]][0]
        return self.chain_value(inside, env)

    def chain_value(self, text, env):
        """The place that a chain stands for, or None."""
        m = WORD.match(text)
        if not m:
            return self.value(text, env) if text.startswith("(") else None
        fields, stop = self.fields(text, m.end())
        if stop != len(text):
            if m[0] in self.functions and not fields:
                return self.functions[m[0]][0]
            return None
        start = env.get(m[0])
        if start is None and m[0] in self.functions:
            start = self.functions[m[0]][0]
        if start is None or isinstance(start, tuple):
            return None
        at, rest = self.walk.follow(start, fields)
        return at if at is not None and not rest else None


LET = re.compile(rf"\blet ({NAME})(?: : ([^=]*?))? =\s+")


def turn_body(t, text, env):
    """A clause's text with its lets: what a let binds to a place or to a step that is no value today is known in what follows."""
    out = ""
    while True:
        m = LET.search(text)
        if not m:
            return out + t.turn_chains(text, env)
        end = re.compile(r"\s+in(?=\s|$)")
        pos, depth = m.end(), 0
        e = None
        while pos < len(text):
            if text[pos] in "([{":
                depth += 1
            elif text[pos] in ")]}":
                depth -= 1
            if depth < 0:
                break
            e = end.match(text, pos)
            if e and depth == 0 and not text[m.end():pos].count("let "):
                break
            e = None
            pos += 1
        if not e:
            out += t.turn_chains(text[:m.end()], env)
            text = text[m.end():]
            continue
        bound = text[m.end():pos]
        out += t.turn_chains(text[:m.start()], env)
        value = t.chain_value(bound.strip(), env)
        env = dict(env)
        if m[2] and m[2].strip().startswith("tie."):
            value = t.place_of(m[2].strip()[4:].split()[0])
        head = WORD.match(bound.strip())
        if value is not None and head and isinstance(env.get(head[0]), int):
            fields, stop = t.fields(bound.strip(), head.end())
            if stop == len(bound.strip()) and fields:
                if not m[2]:
                    value = t.meant(m[1], env[head[0]], fields, text[e.end():])
                new = t.walk.chain(env[head[0]], fields, value)
                if new is None:
                    said = f"let {m[1]} = {bound.strip()} from {t.walk.old[env[head[0]]]} to {t.walk.old[value]}: no way today"
                    t.said.append(said)
                    new = fields
                out += types(t, text[m.start():m.end()]) + head[0] + "".join("." + f for f in new) + text[pos:e.end()]
                env[m[1]] = value
                text = text[e.end():]
                continue
        if value is not None:
            env[m[1]] = value
        else:
            head = WORD.match(bound.strip())
            fields, stop = t.fields(bound.strip(), head.end()) if head else ([], 0)
            if head and stop == len(bound.strip()) and isinstance(env.get(head[0]), int) and fields:
                at, rest = t.walk.follow(env[head[0]], fields)
                if at is not None and rest and t.walk.chain(env[head[0]], fields) is not None:
                    env[m[1]] = (None, env[head[0]], fields)
                    out += t.turn_chains(types(t, text[m.start():m.end()]), env) + t.turn_chains(bound, env) + text[pos:e.end()]
                    text = text[e.end():]
                    continue
                if at is not None and rest:
                    env[m[1]] = (head[0], env[head[0]], fields)
                    text = text[e.end():].lstrip(" ")
                    if text.startswith("\n"):
                        text = text.lstrip("\n ").rjust(0)
                        out = out.rstrip(" ")
                        out += "" if out.endswith("\n") else ""
                        out += "    " if out.endswith("\n") else ""
                    continue
            env.pop(m[1], None)
        text_let = text[m.start():m.end()]
        out += t.turn_chains(types(t, text_let), env) + t.turn_chains(bound, env if value is None else env) + text[pos:e.end()]
        text = text[e.end():]


def types(t, text):
    def one(m):
        i = t.place_of(m[1])
        if i is not None:
            return "tie." + t.walk.new[t.walk.record(i)]
        k = re.match(r"(invariant|decreases)[-_](\S+)$", m[1])
        if k and kebab(k[2]) in t.walk.loops:
            return f"tie.{k[1]}-{t.walk.loops[kebab(k[2])]}"
        return m[0]

    return re.sub(rf"\btie\.({NAME})", one, text)


def turn(text, landed, entry, said):
    walk = Walk(entry)
    t = Text(walk, said)
    old_needs = [(a, kebab(b)) for a, b in re.findall(r"(?m)^(\S+) : tie \.?\.?Need-(\S+)|(?!)", landed)] or [
        (a, kebab(b)) for a, b in re.findall(r"(?m)^(\S+) : tie\.Need-(\S+)", landed)
    ]
    new_needs = re.findall(r"(?m)^(\S+) : tie\.Need-(\S+)", text)
    if len(old_needs) != len(new_needs):
        said.append(f"{len(old_needs)} goals landed, {len(new_needs)} in the ported file")
    if len(old_needs) != len(walk.goals):
        said.append(f"{len(old_needs)} goals landed, {len(walk.goals)} today: {' '.join(walk.goals)}")
    goals, renamed = {}, {}
    for (mine, old), (mine2, port) in zip(old_needs, new_needs):
        i = walk.needs.get(old, walk.needs.get(kebab(port)))
        if i is None:
            said.append(f"goal {old}: unknown")
            continue
        goals[mine2] = (i, port)
        renamed[mine2] = walk.goals[i]
    lines = text.split("\n")
    out, modules, k = [], [], 0
    while k < len(lines):
        line = lines[k]
        indent = len(line) - len(line.lstrip())
        if line.strip():
            modules = [(i, names) for i, names in modules if i < indent]
        env = {n: p for _, names in modules for n, p in names.items()}
        if line.lstrip().startswith("module _ "):
            while not line.endswith(" where"):
                k += 1
                line += "\n" + lines[k]
        m = MODULE.match(line.replace("\n", " "))
        if m:
            names = {}
            for b in BINDER.finditer(m[2]):
                p = t.place_of(b[2])
                if p is not None:
                    names.update({n: p for n in b[1].split()})
            modules.append((indent, names))
            out.append(types(t, t.turn_chains(line, {**env, **names})))
            k += 1
            continue
        s = SIGNATURE.match(line)
        if s and not line.lstrip().startswith(("use ", "--")):
            block = [line]
            k += 1
            while k < len(lines) and lines[k].strip() and len(lines[k]) - len(lines[k].lstrip()) > indent:
                block.append(lines[k])
                k += 1
            sig = "\n".join(block)
            kind = s[4].strip()
            goal = goals.get(s[2])
            params, typed = [], None
            if kind.startswith("tie.Need-") and goal:
                i = goal[0]
                place = walk.index.get(kebab(walk.asked_at[i]))
                if place is not None and walk.record(place) != place:
                    place = Exact(place)
                params = [place]
                sig = re.sub(rf"tie\.Need-{re.escape(goal[1])}(?=\s|$)", f"tie.Need-{walk.goals[i]}", sig, count=1)
            elif kind.startswith("tie."):
                p = t.place_of(kind[4:].split()[0])
                if p is not None:
                    t.functions[s[2]] = (p, 0)
                    params = []
                    typed = p
            else:
                full = " ".join(x.strip() for x in block)
                full = full[full.index(" :") + 2:]
                pos = 0
                while pos < len(full):
                    if full[pos] == "(":
                        end = t.close(full, pos)
                        inner = full[pos + 1:end - 1]
                        if " : " in inner and re.match(r"(?:[^\s(){}.;,:]+ )+: ", inner):
                            names, ty = inner.split(" : ", 1)
                            p = t.place_of(ty[4:].split()[0]) if ty.startswith("tie.") else None
                            params += [p] * len(names.split())
                        pos = end
                    elif full[pos] == "{":
                        pos = t.close(full, pos)
                    elif full[pos] == "→":
                        pos += 1
                    else:
                        pos += 1
                # binders of the signature
            senv = dict(env)
            for b in BINDER.finditer(sig):
                p = t.place_of(b[2])
                if p is not None:
                    senv.update({n: p for n in b[1].split()})
            first = next(iter([p for _, names in modules for p in names.values()] + params), None)
            if first is not None and goal is None:
                t.takes[s[2]] = first
            out.append(types(t, t.turn_chains(sig, senv)))
            # lines `unfolding` and clauses
            while k < len(lines):
                l = lines[k]
                ind = len(l) - len(l.lstrip())
                if not l.strip() or ind != indent:
                    break
                if l.lstrip().startswith("unfolding "):
                    out.append(l)
                    k += 1
                    continue
                if not re.match(rf" *{re.escape(s[2])}(?=\s)", l):
                    break
                block = [l]
                k += 1
                while k < len(lines) and lines[k].strip() and len(lines[k]) - len(lines[k].lstrip()) > indent:
                    block.append(lines[k])
                    k += 1
                clause = "\n".join(block)
                eq = re.search(r"\s=(?=\s)", clause)
                if not eq:
                    out.append(clause)
                    continue
                head, body = clause[:eq.start()], clause[eq.start():]
                args = re.sub(r"\{[^{}]*\}", " ", head).split()[1:]
                cenv = dict(env)
                for a in args:
                    cenv.pop(a, None)
                for a, p in zip(args, params):
                    if p is not None:
                        cenv[a] = p
                chain = re.fullmatch(rf"\s=\s+({NAME})((?:\.{NAME})*)\s*", body)
                if typed is not None and chain and isinstance(cenv.get(chain[1]), int):
                    new = t.walk.chain(cenv[chain[1]], [], typed)
                    if new is None:
                        said.append(f"{s[2]} from {walk.old[cenv[chain[1]]]} to {walk.old[typed]}: no way today")
                    else:
                        body = body[: body.index(chain[1])] + chain[1] + "".join("." + f for f in new)
                        out.append(head + body)
                        continue
                out.append(head + turn_body(t, types(t, body), cenv))
            continue
        out.append(types(t, t.turn_chains(line, env)) if not line.startswith("use ") else line)
        k += 1
    text = "\n".join(out)
    text = re.sub(
        rf"(?<![^\s(){{}};,@\"«»])({NAME})(?![^\s(){{}};,@\"«»])",
        lambda m: renamed.get(m[1], m[1]),
        text,
    )
    for a, b in entry.get("args", []):
        if a.startswith(".args "):
            text = re.sub(re.escape(a.replace(" ", "")) + r"(?![\w-])", b.replace(" ", ""), text)
    text = re.sub(r"(?<=[\w)])\.inv(?![\w-])", ".invariant", text)
    text = re.sub(r"(?m)^(pub )?(\S+)-spec(?= (?:: \{M|=))", lambda m: f"{m[1] or ''}{m[2].replace('-', '_')}_spec", text)
    return text


def main():
    landed_root, ported_root, names_root, *crates = sys.argv[1:]
    for c in crates:
        c, _, only = c.partition("/")
        with open(f"{names_root}/{c}/names.json") as f:
            entries = json.load(f)
        for folder, dirs, files in sorted(os.walk(f"{ported_root}/crates/{c}/proofs")):
            if "Proof.antt" not in files:
                continue
            fn = os.path.relpath(folder, f"{ported_root}/crates/{c}/proofs").replace("/", ".")
            if only and fn != only:
                continue
            key = f"Rattle-{c}-proofs.{fn}.Lts"
            said = []
            path = f"crates/{c}/proofs/{fn.replace('.', '/')}/Proof.antt"
            with open(f"{ported_root}/{path}") as f:
                text = f.read()
            if key not in entries:
                print(f"{path}: no entry")
                continue
            with open(f"{landed_root}/{path}") as f:
                landed = f.read()
            new = turn(text, landed, entries[key], said)
            with open(path, "w") as f:
                f.write(new)
            for s in said:
                print(f"{path}: {s}")


if __name__ == "__main__":
    main()
