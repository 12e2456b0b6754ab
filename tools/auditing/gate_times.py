"""Where the time of a run of the gate went, from a log with seconds: by crate, and by what each batch waited for. The rt that the repository was written
for printed them; today's prints none, so that of its logs nothing is told.

rt starts so many checks and waits for all of them: crates level by level, then edits in the order of their crates. The seconds that it prints are those on
the clock, of checks that share the processors; what each took of a processor is worked back from them.
"""
import re
import sys
from collections import namedtuple

sys.dont_write_bytecode = True
from gate_log import LOG, GateLog
from sources import ROOT

CRATE = re.compile(r"^rt: (\w+) proved \((\d+) s\)$", re.M)
EDIT = re.compile(r"^rt: must-fail (\S+): refused, as it must be \((?:first at )?.*?(?:; )?(\d+) s\)$", re.M)
AT_A_TIME = re.compile(r"^gate: (\d+) checks at a time on (\d+) processors$", re.M)
# A crate that takes longer of a processor than this has at most one edit in the gate (docs/DECISIONS.md).
LONG = 35
# Checks that were started together: what they are of, and the seconds of each on the clock.
Batch = namedtuple("Batch", "of times")
# What a crate costs the gate, in seconds of a processor: its proof, and its edits.
Cost = namedtuple("Cost", "crate proof edits")


class TimedLog(GateLog):
    """A log with the seconds that each crate and edit took on the clock, in the order in which they were checked, so many at a time."""

    def __init__(self, text):
        super().__init__(text)
        self.times = {crate: int(seconds) for crate, seconds in CRATE.findall(text)}
        self.edit_times = {edit: int(seconds) for edit, seconds in EDIT.findall(text)}
        at_a_time = AT_A_TIME.search(text)
        self.jobs, self.processors = (int(n) for n in at_a_time.groups()) if at_a_time else (1, 1)


def levels(listed):
    """The level of each crate of a crates.txt: one above the highest of those that it names."""
    uses = {name: rest.split() for name, rest in re.findall(r"^(\w+):([^#\n]*)", listed, re.M)}
    found = {}

    def level(name):
        if name not in found:
            found[name] = max((1 + level(other) for other in uses[name] if other in uses), default=0)
        return found[name]

    return {name: level(name) for name in uses}


def batches(log, listed):
    """The batches of a run: crates of one level, and then edits, so many at a time."""
    level = levels(listed)
    rows = {f"level {n}": {name: s for name, s in log.times.items() if level[name] == n} for n in sorted({level[name] for name in log.times})}
    rows["edits"] = log.edit_times
    return [Batch(of, dict(list(times.items())[start:start + log.jobs])) for of, times in rows.items() for start in range(0, len(times), log.jobs)]


def of_a_processor(times, processors):
    """What checks that were started together took of a processor, where those that still run share the processors evenly."""
    taken, before, spent = {}, 0, 0.0
    for done, (name, end) in enumerate(sorted(times.items(), key=lambda item: item[1])):
        spent += (end - before) * min(1, processors / (len(times) - done))
        taken[name], before = spent, end
    return taken


def costs(log, all_batches):
    """What each crate costs, the dearest first."""
    taken = {name: s for batch in all_batches for name, s in of_a_processor(batch.times, log.processors).items()}
    found = [Cost(crate, taken[crate], [s for edit, s in taken.items() if edit.startswith(crate + "/")]) for crate in log.times]
    return sorted(found, key=lambda cost: -cost.proof - sum(cost.edits))


def by_crate(found):
    """The table of crates: proof, edits, and both."""
    yield f"{'':24}{'proof':>8}{'edits':>8}{'theirs':>8}{'all':>8}"
    for cost in found:
        yield f"{cost.crate:24}{cost.proof:8.0f}{len(cost.edits):8}{sum(cost.edits):8.0f}{cost.proof + sum(cost.edits):8.0f}"
    proofs, edits = sum(cost.proof for cost in found), sum(sum(cost.edits) for cost in found)
    yield f"{'all':24}{proofs:8.0f}{sum(len(cost.edits) for cost in found):8}{edits:8.0f}{proofs + edits:8.0f}"


def by_batch(all_batches):
    """What each batch waited for, and how much in all."""
    for batch in all_batches:
        slowest = max(batch.times, key=batch.times.get)
        yield f"{batch.of:12}{batch.times[slowest]:6}  {slowest}"
    edits = sum(max(batch.times.values()) for batch in all_batches if batch.of == "edits")
    proofs = sum(max(batch.times.values()) for batch in all_batches) - edits
    yield f"{proofs} s for proofs and {edits} s for edits, {proofs + edits} s on the clock"


def too_many(found):
    """The crates that take long and have more than one edit."""
    return [f"{cost.crate} takes {cost.proof:.0f} s of a processor and has {len(cost.edits)} edits" for cost in found if cost.proof > LONG and len(cost.edits) > 1]


def report(log, listed):
    """All lines."""
    found = batches(log, listed)
    yield f"Seconds of a processor, worked back from rt's, of {log.jobs} checks at a time on {log.processors} processors:"
    yield from by_crate(costs(log, found))
    yield "What each batch waited for, in seconds on the clock:"
    yield from by_batch(found)
    yield from too_many(costs(log, found))


if __name__ == "__main__":
    timed = TimedLog(LOG.read_text())
    print("\n".join(report(timed, (ROOT / "crates.txt").read_text())) if timed.times else "audit/gate.log has no seconds")
