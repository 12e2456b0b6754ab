"""Why a check refused an edited crate, by what it said.

A goal of a function is named after what asks it: `returns` is the function's own contract, `loop-i-preserved` a loop's invariant, `G-requires` what the
function G asks of its callers, and the others are safety. `F_spec` joins what was shown of F's goals, and doesn't where the goals are others than before; of
functions that call themselves, `+F_spec` shows them in place. Outside of a function's proof a law is refused, or a definition.
"""
import re
from collections import namedtuple

# Goals of safety alone: nothing wraps, is cut off or is divided by 0, each place is within its slice, and each loop ends.
SAFETY = re.compile(r"(overflow|bounds|slice_bounds|offset_bounds|shape_of|enum_known|enum_told|div|rem)(_\w+)?-|same-(length|references)|.*-smaller(-\d+)?$")
# The files of a function's proof.
PROOF = re.compile(r"(^|/)proofs/.*/(Proof|Answers|Invariants)\.antt$")
REFUSED = re.compile(r"^(?P<file>\S+?):(?P<line>\d+):\d+: error: `(?P<name>[^`]+)`: (?P<why>.*)$", re.M)
# What isn't met in a function that has no proof of its own.
UNMET = re.compile(r"^note: (?P<file>\S+?):(?P<line>\d+):\d+: it is not proved .*\(`(?P<name>[^`]+)`\)(;.*)?$", re.M)
# A proof that names what its function no longer has.
GONE = re.compile(r"has no `|has no field|is not in scope")

# What was refused: its kind (contract, law, asked, safety or shape), its name, and its place in the crate.
Ground = namedtuple("Ground", "kind name place")
# What becomes of an edit: a word, and the ground that the table shows.
Verdict = namedtuple("Verdict", "word ground")


def kind_of(file, name, why):
    """The kind of a ground."""
    in_proof = PROOF.search(file)
    if in_proof and (GONE.search(why) or (name.endswith("_spec") and not name.startswith("+"))):
        return "shape"
    if in_proof or not file.endswith(".antt"):
        if SAFETY.match(name):
            return "safety"
        if re.search(r"-requires(-|$)", name):
            return "asked"
        return "contract"
    return "law"


def grounds(said, crate):
    """All that was refused by itself, and not because something that it uses was."""
    found = [m for m in REFUSED.finditer(said) if "was not admitted" not in m["why"]] + list(UNMET.finditer(said))
    return [Ground(kind_of(m["file"], m["name"], m.groupdict().get("why", "")), m["name"],
                   m["file"].split(f"/crates/{crate}/")[-1].removeprefix("./") + ":" + m["line"]) for m in found]


def first(found, *kinds):
    """The first ground of the first kind that is there."""
    return next((ground for kind in kinds for ground in found if ground.kind == kind), None)


def verdict(status, said, crate):
    """`refused` where a contract, a law or what a callee asks doesn't hold and every proof still fits its function; else what is wrong with the edit."""
    if status == 0:
        return Verdict("PASSES", None)
    if not re.search(r"^logic=not-proved", said, re.M):
        return Verdict("NOT CHECKED", None)
    found = grounds(said, crate)
    if first(found, "shape"):
        return Verdict("SHAPE", first(found, "shape"))
    ground = first(found, "contract", "law", "asked")
    if ground:
        return Verdict("refused", ground)
    return Verdict("SAFETY ALONE" if found else "NO GROUND", first(found, "safety"))
