"""Edits: how they are read and made, and what the check's words make of them."""
import tempfile
import unittest
from pathlib import Path

import paths
from edit import CRATES, BadEdit, apply, edits_of, replacements
from refusal import Ground, grounds, kind_of, verdict

RETURNS = "./proofs/write_byte/Proof.antt:31:5: error: `returns-3`: computed as far as they go, the two types differ\n"
ADDS = "./proofs/read_form/Proof.antt:101:13: error: `overflow_add-sum`: `omega`: the goal does not follow from what it read\n"
NO_GOAL = "./proofs/write_byte/Proof.antt:19:12: error: `overflow_cast-dst`: `tie.Need-overflow_cast-dst`: module `Tie` has no `Need-overflow_cast-dst` that can be named from here\n"
FOLLOWS = "./proofs/write_byte/Proof.antt:34:57: error: 1 declaration that depends on `returns-3`, which was rejected, was not checked: write_byte_spec\n"
UNPROVED = "note: src/little_endian.rt:8:1: it is not proved that what the function ensures holds when it returns (`returns`); the facts known there allow values\n"
LAW = "./proofs/LawsRead.antt:8:3: error: `add_form`: expected type `a`\n"
END = "logic=not-proved\n"


class TestRefusal(unittest.TestCase):
    def word(self, said, status=1):
        return verdict(status, said + END, "compact").word

    def test_kinds(self):
        proof = "./proofs/f/Answers.antt"
        for name, kind in (
            ("returns", "contract"), ("returns-12", "contract"), ("loop-i-init", "contract"), ("loop-i-preserved", "contract"), ("loop-i-smaller", "safety"),
            ("overflow_add-i", "safety"), ("slice_bounds-out-end", "safety"), ("same-length-2", "safety"), ("shape_of-body", "safety"),
            ("put_u16-requires-2", "asked"), ("with_last-requires-then-b2-lt3", "asked"), ("f_spec", "shape"), ("+f_spec", "contract"),
        ):
            self.assertEqual(kind_of(proof, name, "differs"), kind, name)
        self.assertEqual(kind_of("./proofs/LawsF.antt", "add_i", "differs"), "law")
        self.assertEqual(kind_of("./specs/F.antt", "f", "differs"), "law")

    def test_grounds(self):
        self.assertEqual(grounds(RETURNS + FOLLOWS, "compact"), [Ground("contract", "returns-3", "proofs/write_byte/Proof.antt:31")])
        self.assertEqual(grounds(UNPROVED, "compact"), [Ground("contract", "returns", "src/little_endian.rt:8")])

    def test_verdicts(self):
        self.assertEqual(self.word(RETURNS), "refused")
        self.assertEqual(self.word(ADDS + RETURNS), "refused")
        self.assertEqual(self.word(LAW), "refused")
        self.assertEqual(self.word(ADDS), "SAFETY ALONE")
        self.assertEqual(self.word(RETURNS + NO_GOAL), "SHAPE")
        self.assertEqual(self.word(FOLLOWS), "NO GROUND")
        self.assertEqual(self.word("", 0), "PASSES")
        self.assertEqual(verdict(1, "error: expected `;`\n", "compact").word, "NOT CHECKED")

    def test_a_contract_is_shown_before_safety(self):
        self.assertEqual(verdict(1, ADDS + RETURNS + END, "compact").ground.name, "returns-3")


class TestEdit(unittest.TestCase):
    def test_replacements(self):
        text = "# a comment: with a colon\nfile: src/a.rt\nold:  a\nnew: b\nold: c\nnew:\nfile: specs/B.antt\nold: d\nnew: e: f\n"
        self.assertEqual(replacements(text), [("src/a.rt", " a", "b"), ("src/a.rt", "c", ""), ("specs/B.antt", "d", "e: f")])

    def test_bad_edits(self):
        for text in ("# nothing\n", "old: a\nnew: b\n", "file: src/a.rt\nnew: b\n"):
            with self.assertRaises(BadEdit):
                replacements(text)

    def made(self, edit, text):
        """What an edit makes of a file."""
        with tempfile.TemporaryDirectory() as room:
            crate, path = Path(room) / "crate", Path(room) / "one.edit"
            (crate / "src").mkdir(parents=True)
            (crate / "src/a.rt").write_text(text)
            path.write_text(edit)
            apply(path, crate)
            return (crate / "src/a.rt").read_text()

    def test_apply(self):
        self.assertEqual(self.made("file: src/a.rt\nold: 1 < n\nnew: 1 <= n\n", "if 1 < n {\n}\n"), "if 1 <= n {\n}\n")

    def test_a_text_has_to_stand_there_once(self):
        for text in ("", "a a"):
            with self.assertRaisesRegex(BadEdit, "times"):
                self.made("file: src/a.rt\nold: a\nnew: b\n", text)
        with self.assertRaisesRegex(BadEdit, "there is no"):
            self.made("file: src/../a.rt\nold: a\nnew: b\n", "a")

    def test_every_edit_of_the_repository_can_be_made(self):
        """Each edit's old texts stand once in its crate's files, and no name is used in both folders of a crate."""
        for crate in sorted(path.name for path in CRATES.iterdir()):
            edits = edits_of(crate, ("must-fail", "edits"))
            self.assertEqual(len({edit.stem for edit in edits}), len(edits), crate)
            for edit in edits:
                self.assertTrue(edit.read_text().startswith("# "), edit)
                texts = {}
                for file, old, new in replacements(edit.read_text()):
                    text = texts.get(file) or (CRATES / crate / file).read_text()
                    self.assertEqual(text.count(old), 1, edit)
                    texts[file] = text.replace(old, new)
                    self.assertNotEqual(texts[file], text, edit)


if __name__ == "__main__":
    unittest.main()
