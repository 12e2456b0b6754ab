"""Where the gate's time goes: levels, batches, processor time worked back, and the lines told at the end."""
import unittest

import paths
from gate_times import Batch, Cost, TimedLog, batches, by_batch, by_crate, costs, levels, of_a_processor, report, too_many

LISTED = """\
# a comment
base:
other: io libc
middle: base other   # with a comment
top: middle base
"""
HEAD = "commit 0123abcd\ndate 2026-01-02 03:04 UTC\ntoolchain t\ngate: 2 checks at a time on 1 processors\n"


def log(*lines):
    """A log with crates and edits of some seconds."""
    rows = [f"logic=proved functions=1\nrt: {name} proved ({s} s)" if "/" not in name else f"rt: must-fail {name}: refused, as it must be (first at x; {s} s)"
            for name, s in lines]
    return TimedLog(HEAD + "\n".join(rows) + "\n")


class TestGateTimes(unittest.TestCase):
    def setUp(self):
        self.log = log(("base", 4), ("other", 10), ("middle", 3), ("top", 40), ("base/a", 4), ("base/b", 6), ("top/c", 41))

    def test_levels(self):
        self.assertEqual(levels(LISTED), {"base": 0, "other": 0, "middle": 1, "top": 2})

    def test_batches(self):
        self.assertEqual(batches(self.log, LISTED), [
            Batch("level 0", {"base": 4, "other": 10}), Batch("level 1", {"middle": 3}), Batch("level 2", {"top": 40}),
            Batch("edits", {"base/a": 4, "base/b": 6}), Batch("edits", {"top/c": 41})])

    def test_a_level_with_more_crates_than_are_checked_at_a_time(self):
        found = batches(log(("a", 1), ("b", 2), ("c", 3)), "a:\nb:\nc:\n")
        self.assertEqual([batch.times for batch in found], [{"a": 1, "b": 2}, {"c": 3}])

    def test_processor_time_of_checks_that_share_one(self):
        self.assertEqual(of_a_processor({"long": 10, "short": 4}, 1), {"short": 2, "long": 8})

    def test_processor_time_where_each_has_one(self):
        self.assertEqual(of_a_processor({"long": 10, "short": 4}, 2), {"short": 4, "long": 10})

    def test_four_on_two(self):
        self.assertEqual(of_a_processor({"a": 8, "b": 8, "c": 8, "d": 8}, 2), dict.fromkeys("abcd", 4.0))

    def test_processor_time_adds_up(self):
        taken = of_a_processor({"a": 3, "b": 7, "c": 9, "d": 20}, 2)
        self.assertAlmostEqual(sum(taken.values()), 9 * 2 + 11)

    def test_costs(self):
        found = costs(self.log, batches(self.log, LISTED))
        self.assertEqual(found, [Cost("top", 40, [41]), Cost("base", 2, [2, 4]), Cost("other", 8, []), Cost("middle", 3, [])])

    def test_lines(self):
        found = batches(self.log, LISTED)
        self.assertEqual(list(by_crate(costs(self.log, found)))[-1].split(), ["all", "53", "3", "47", "100"])
        lines = list(by_batch(found))
        self.assertEqual(lines[0].split(), ["level", "0", "10", "other"])
        self.assertEqual(lines[-1], "53 s for proofs and 47 s for edits, 100 s on the clock")

    def test_a_long_crate_with_two_edits_is_told(self):
        self.assertEqual(too_many([Cost("a", 36, [1]), Cost("b", 35, [1, 1]), Cost("c", 36, [1, 1])]), ["c takes 36 s of a processor and has 2 edits"])
        self.assertFalse(any("takes" in line for line in report(self.log, LISTED)))


if __name__ == "__main__":
    unittest.main()
