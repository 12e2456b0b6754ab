"""What a run of the gate said, read from the log that tools/gate keeps. A log that doesn't show all proved, for this commit, is refused."""
import re
import subprocess

from reading import crate_names
from sources import CRATES, ROOT, Wrong

LOG = ROOT / "audit" / "gate.log"
HEAD = re.compile(r"commit (?P<commit>\w+)\ndate (?P<date>.+)\ntoolchain (?P<toolchain>.+)\n")
REFUSED = re.compile(r"^rt: must-fail (\S+)\.edit: refused, as it must be(?: \([^)\n]*\))?(?:: (?:note: )?(\S+?:\d+:\d+):)?", re.M)


def git(*words):
    """What a git command says."""
    return subprocess.run(["git", *words], cwd=ROOT, capture_output=True, text=True, check=True).stdout.strip()


class GateLog:
    """A run of the gate: what was proved, with how many functions and axioms, which edits were refused and where, and which programs ran."""

    def __init__(self, text):
        head = HEAD.match(text)
        if not head:
            raise Wrong("audit/gate.log doesn't begin with a commit, a date and a toolchain: make it by tools/gate")
        self.commit, self.date, self.toolchain = head.group("commit", "date", "toolchain")
        self.lines = text.splitlines()
        self.functions, self.axioms = {}, {}
        self.read_crates()
        self.refused = dict(REFUSED.findall(text))
        self.ran = re.findall(r"^rt: (\w+) ran,", text, re.M)
        self.sums = set(re.findall(r"^logic=proved .*\bsum=(\w+)", text, re.M))

    def read_crates(self):
        """A crate's verdict is the last line before the one that says that it is proved; its tests have one of their own."""
        functions = axioms = None
        for line in self.lines:
            verdict = re.match(r"logic=proved .*?\bfunctions=(\d+)", line)
            if verdict:
                counted = re.search(r"\baxioms=(\d+)", line)
                functions, axioms = int(verdict.group(1)), int(counted.group(1)) if counted else 0
            proved = re.fullmatch(r"rt: (\w+)(: its tests are)? proved", line)
            if proved and functions is not None:
                if not proved.group(2):
                    self.functions[proved.group(1)], self.axioms[proved.group(1)] = functions, axioms
                functions = axioms = None

    def check(self):
        """Raises where the log isn't of this commit, or doesn't show that all was proved and refused."""
        if self.commit != git("rev-parse", "HEAD"):
            raise Wrong(f"audit/gate.log is of commit {self.commit[:12]}, and this is {git('rev-parse', '--short=12', 'HEAD')}: run tools/gate")
        edits = {f"{path.parts[-3]}/{path.stem}" for path in CRATES.glob("*/must-fail/*.edit")}
        programs = {name for name in crate_names() if (CRATES / name / "src/main.rt").exists()}
        for what, wanted, there in (
            ("not proved in the log", set(crate_names()), set(self.functions)),
            ("not refused in the log", edits, set(self.refused)),
            ("not run in the log", programs, set(self.ran)),
        ):
            if wanted != there:
                raise Wrong(f"{what}: {', '.join(sorted(wanted ^ there))}")
        if self.lines[-1] != f"{len(self.functions) + len(self.refused)} passed, 0 failed":
            raise Wrong(f"the last line of the log is: {self.lines[-1]}")
        if not all(f" {total[:16]}" in self.toolchain for total in self.sums):
            raise Wrong(f"the log's toolchain {self.toolchain} has another sum than its lines: {self.sums}")


def gate_log():
    """The log of this commit's gate."""
    if not LOG.exists():
        raise Wrong("there is no audit/gate.log: run tools/gate, or write a draft by tools/audit --draft")
    log = GateLog(LOG.read_text())
    log.check()
    return log
