"""What the auditor's page reads: names in documents, words of antt and what they mean, and the log of a run of the gate."""
import os
import tempfile
import unittest
from pathlib import Path

import paths
from archive import is_current, made_from
from day import EXAMPLE, told, with_answers
from gate_log import GateLog
from names import fits, is_sample, missing_in
from page import Code, anchor, code_html, contents, dead_links, inline, markdown, page, ranges
from reading import Reading
from sources import CRATES, Target, Wrong, brought, declaration, target
from words import chunks, top_level, words_of


def texts(words):
    return [word.text for word in words]


class TestWords(unittest.TestCase):
    def test_words_and_comments(self):
        self.assertEqual(texts(words_of(["f x = g x.len -- a comment", "-- another"])), ["f", "x", "=", "g", "x", ".", "len"])

    def test_a_dash_in_a_name_is_no_comment(self):
        self.assertEqual(texts(words_of(["start_kept : n -- b"])), ["start_kept", ":", "n"])

    def test_tight_dots(self):
        self.assertEqual([word.tight for word in words_of(["λ x. x.len"]) if word.text == "."], [False, True])

    def test_top_level(self):
        words = words_of(["f (a = b) = c"])
        self.assertEqual(words[top_level(words, "=")].column, 10)
        self.assertEqual(top_level(words, "→"), len(words))

    def test_chunks_of_a_definition(self):
        found = chunks(["f : ℕ → ℕ", "f zero = zero", "f (suc n) =", "    n"])
        self.assertEqual([texts(chunk)[0:2] for chunk in found], [["f", ":"], ["f", "zero"], ["f", "("]])
        self.assertEqual(texts(found[2])[-1], "n")


class TestSources(unittest.TestCase):
    def test_names_brought_in(self):
        found = list(brought(["use Rattle.std.specs.Prelude.{ℕ, ◌+◌}", "ghost use Rattle.error.specs.Refusal.{Answer, accepted as yes};", "fn main() {"]))
        self.assertEqual([name for name, _, _ in found], ["ℕ", "◌+◌", "Answer", "yes"])
        self.assertEqual(found[0][1], Target("toolchain", "Rattle.std.specs.Prelude", "ℕ"))
        self.assertEqual(found[3][1], Target("specs", CRATES / "error/specs/Refusal.antt", "accepted"))

    def test_a_type_of_the_code(self):
        self.assertEqual(target("Rattle.scripthash_layout.specs.declared.head.ShHeadValue.TheVariants", "Slab"),
                         Target("code", CRATES / "scripthash_layout/src/head.rt", "ShHeadValue"))

    def test_a_declaration_and_what_it_rests_on(self):
        found = declaration(Target("specs", CRATES / "compact/specs/Uleb128.antt", "after_write"))
        self.assertTrue(found.comment[0].startswith("-- What the destination holds afterwards"))
        self.assertEqual(len(found.code), 2)
        rests = {meant.name for meant in Reading([found]).definitions}
        self.assertLessEqual({"uleb_len", "shortest", "overwrite"}, rests)
        self.assertNotIn("read_uleb", rests)

    def test_what_is_not_there_is_wrong(self):
        with self.assertRaisesRegex(Wrong, "declares no `after_read`"):
            declaration(Target("specs", CRATES / "compact/specs/Uleb128.antt", "after_read"))
        with self.assertRaisesRegex(Wrong, "there is no file"):
            declaration(Target("specs", CRATES / "compact/specs/Uleb.antt", "after_write"))


class TestNames(unittest.TestCase):
    def missing(self, text):
        return [name for _, name in missing_in(text)]

    def test_names_that_are_there(self):
        self.assertEqual(self.missing("`compact`: `read_uleb128`, `len_641`; `book_read/src/reading.rt` and `demand_3`, by `rt check NAME`"), [])

    def test_names_that_are_not(self):
        self.assertEqual(self.missing("`compact`: `read_uleb129`, `len_641`\n`tools/no_such_tool`"), ["read_uleb129", "tools/no_such_tool"])

    def test_a_name_of_another_crate(self):
        self.assertEqual(self.missing("`compact`: `is_slab`. `is_slab`"), ["is_slab"])

    def test_a_line_of_a_table_and_its_number(self):
        self.assertEqual(list(missing_in("text\n| `compact`: `no_edit` | `len_641` |")), [(2, "no_edit")])

    def test_code_is_passed_over(self):
        self.assertEqual(self.missing("```sh\n`no_such_name`\n```\n`no_such_name`"), ["no_such_name"])

    def test_shortened_names(self):
        self.assertTrue(fits("pack8_…", "pack8_bytes"))
        self.assertFalse(fits("pack8_…", "unpack8"))
        self.assertTrue(is_sample("CRATE/FILE"))
        self.assertTrue(is_sample("0123456789abcdef" * 4))
        self.assertFalse(is_sample("CRATE/file"))


class TestPage(unittest.TestCase):
    def test_contents(self):
        blocks = ["# Title", "## 1. First\n\n### A. The shop's day\n\ntext\n\n### B. Next", Code(["## no heading"], None, []), "## 2. Last"]
        self.assertEqual(contents(blocks), "- [1. First](#1-first): [A. The shop's day](#a-the-shops-day); [B. Next](#b-next)\n- [2. Last](#2-last)")
        self.assertEqual(anchor("A. The shop's day"), "a-the-shops-day")

    def test_ranges_of_letters(self):
        self.assertEqual([ranges(letters) for letters in ("", "O", "AB", "ABC", "ACDEFO")], ["", "O", "A and B", "A to C", "A, C to F and O"])

    def test_links_with_code(self):
        self.assertEqual(inline("see [`f`](#a.rt:f), *now*"), 'see <a href="#a.rt:f"><code>f</code></a>, <i>now</i>')
        self.assertEqual(markdown(["[`f`](#a.rt:f) and [A](#a)"]), "`f` and [A](#a)\n")

    def test_links_that_lead_nowhere(self):
        self.assertEqual(dead_links(page("T", ["# A b\n\n[here](#a-b), [f](#f), [g](#g)", Code(["f"], "f", [])])), ["g"])

    def test_no_word_is_broken(self):
        self.assertEqual(inline("in a/b-c"), 'in <span class="whole">a/b-c</span>')
        self.assertEqual(inline("`rt check`"), "<code class=words>rt check</code>")
        self.assertEqual(code_html(Code(["f < g-h"], "f", [])), '<pre id="f"><span class="row">f &lt; <span class="whole">g-h</span>\n</span></pre>')


class TestDay(unittest.TestCase):
    SAID = "# one\n> keys 1\na fresh book\n> append 0 5\nappended\n> keys 2\nanother\n> read 0\nread: 0 numbers\n"

    def test_answers_of_the_example(self):
        self.assertEqual(with_answers("| `keys 1` | {answer} |\n`append 0 5` {answer}\n`keys 2` {answer}; `x`", self.SAID),
                         "| `keys 1` | a fresh book |\n`append 0 5` appended\n`keys 2` another; `x`")
        self.assertIn(("append 0 5", "appended: inline 5; 0 records rewritten"), told(EXAMPLE.read_text()))

    def test_an_answer_of_another_book(self):
        with self.assertRaisesRegex(Wrong, "no `read 0` there"):
            with_answers("`keys 1` {answer}\n`append 0 5` {answer}\n`read 0` {answer}", self.SAID)


class TestArchive(unittest.TestCase):
    def test_what_it_is_made_from(self):
        self.assertLessEqual({CRATES / "ouriscado/src", CRATES / "error/specs/Refusal.antt"}, set(made_from()))

    def test_an_archive_that_is_older_or_missing(self):
        with tempfile.TemporaryDirectory() as folder:
            archive, source = Path(folder, "a"), Path(folder, "s")
            source.touch()
            self.assertFalse(is_current(archive, [source]))
            archive.touch()
            os.utime(source, (1, 1))
            self.assertTrue(is_current(archive, [source]))
            os.utime(archive, (0, 0))
            self.assertFalse(is_current(archive, [source]))


LOG = """\
commit 0123abcd
date 2026-01-02 03:04 UTC
toolchain rattle-kit 7 sum feed
== error
logic=proved functions=3 sum=feed native=nat
rt: error proved
rt: error: trying its must-fail edits (1)
== table: its tests
logic=proved tests=1 functions=12 axioms=9 sum=feed
rt: table: its tests are proved
== table
logic=proved functions=11 axioms=2 sum=feed
rt: table proved
rt: must-fail error/refuse_if_never.edit: refused, as it must be: proofs/LawsAnswer.antt:21:5: error: `again`: expected type `a`
rt: must-fail table/s6_no_count.edit: refused, as it must be
rt: must-fail table/s7.edit: refused, as it must be (only because a proof file names what the edit took away): note: src/main.rt:8:5: not met
rt: table ran, and wrote what its file stdout has
rt: table ran (built by Rattle's own compiler), and wrote what its file stdout has
rt: ok; handles allowed: none; must-fail edits: 3 refused; every proof and must-fail edit was done in this run
5 passed, 0 failed
"""


class TestGateLog(unittest.TestCase):
    def test_what_a_log_says(self):
        log = GateLog(LOG)
        self.assertEqual((log.commit, log.date, log.toolchain), ("0123abcd", "2026-01-02 03:04 UTC", "rattle-kit 7 sum feed"))
        self.assertEqual((log.functions, log.axioms), ({"error": 3, "table": 11}, {"error": 0, "table": 2}))
        self.assertEqual(log.refused, {"error/refuse_if_never": "proofs/LawsAnswer.antt:21:5", "table/s6_no_count": "", "table/s7": "src/main.rt:8:5"})
        self.assertEqual((log.ran, log.sums), (["table"], {"feed"}))

    def test_an_edit_that_was_not_refused_is_not_there(self):
        for word in ("NOT REFUSED: the crate is still proved with this edit", "BAD EDIT: an 'old:' text is in src/main.rt 0 times, and not once"):
            self.assertNotIn("table/s6_no_count", GateLog(LOG.replace("s6_no_count.edit: refused, as it must be", f"s6_no_count.edit: {word}")).refused)

    def test_a_crate_that_an_earlier_run_proved_is_not_there(self):
        kept = "rt: table is kept: an earlier run on this machine proved the same files over the same libraries"
        self.assertNotIn("table", GateLog(LOG.replace("rt: table proved", kept)).functions)

    def test_a_log_without_a_head(self):
        with self.assertRaisesRegex(Wrong, "doesn't begin with a commit"):
            GateLog(LOG.split("\n", 1)[1])

    def test_a_log_of_another_commit(self):
        with self.assertRaisesRegex(Wrong, "is of commit 0123abcd"):
            GateLog(LOG).check()


if __name__ == "__main__":
    unittest.main()
