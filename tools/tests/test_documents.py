"""The documents: links lead to files and headings that are there, and the bytes that FORMAT gives as examples are what its rules give."""
import re
import subprocess
import unittest

from paths import ROOT
import rules

FORMAT = (ROOT / "docs/FORMAT.md").read_text()


def documents():
    """The documents of the repository, also those that aren't committed yet."""
    listed = subprocess.run(["git", "ls-files", "-co", "--exclude-standard", "*.md"], cwd=ROOT, capture_output=True, text=True, check=True)
    return [ROOT / line for line in listed.stdout.splitlines() if (ROOT / line).exists()]


def anchors(path):
    """The headings of a document, as links name them."""
    text = re.sub(r"^```.*?^```", "", path.read_text(), flags=re.M | re.S)
    return {re.sub(r"[^\w -]", "", heading.lower()).replace(" ", "-") for heading in re.findall(r"^#+ (.+)$", text, re.M)}


def spelled(bs):
    return " ".join(f"{b:02X}" for b in bs)


class TestLinks(unittest.TestCase):
    def test_links_lead_somewhere(self):
        for path in documents():
            for target in re.findall(r"\]\(([^)\s]+)\)", path.read_text()):
                name, _, heading = target.partition("#")
                if re.match(r"\w+:", target):
                    continue
                meant = (path.parent / name).resolve() if name else path
                self.assertTrue(meant.exists(), f"{path.relative_to(ROOT)} links to {target}")
                if heading:
                    self.assertIn(heading, anchors(meant), f"{path.relative_to(ROOT)} links to {target}")


class TestNotice(unittest.TestCase):
    def test_the_crate_has_the_same(self):
        self.assertEqual((ROOT / "rust/NOTICE").read_text(), (ROOT / "NOTICE").read_text())


class TestExamples(unittest.TestCase):
    def row(self, name):
        """The last cell of a row of the worked examples."""
        return re.search(rf"^\| {name} \|.*\| ([^|]+) \|$", FORMAT, re.M)[1]

    def test_words(self):
        self.assertIn(f"0x{rules.pack([rules.SLAB, 0, 2, 4096], [], [])[0]:016X}", FORMAT)
        self.assertEqual(self.row("S8"), f"0x{rules.pack([rules.SLAB, 2, 5, 4096], [], [])[0]:016X}")

    def test_forms(self):
        self.assertEqual(self.row("S1"), f"{spelled(rules.form(0))}, and {spelled(rules.form(128))}")
        self.assertEqual(self.row("S2"), spelled(rules.form(12857)))
        self.assertEqual(rules.read_form([0x80, 0]), (0, 2))

    def test_slabs(self):
        for numbers, given in (([9, 10], "has the payload {}."), ([5, 300, 301], "| S6 | the slab of 5, 300, 301 | {} |")):
            slab = [0] * 16
            [length] = rules.encode_slab([], slab, numbers)
            self.assertIn(given.format(spelled(slab[:length])), FORMAT)

    def test_header_of_a_last_page(self):
        page = [0] * 4096
        rules.pack_extent([0, 8192, 1], page, list(range(1, 258)))
        rules.set_creates([257], page, [])
        self.assertIn(f"with 257 numbers: {spelled(page[:24])}.", FORMAT)

    def test_refused_forms(self):
        for bs, number in (([0xFF] * 9 + [2], 18), ([0x80] * 10, 17), ([0x80] * 11, 18)):
            with self.assertRaises(rules.Refused) as caught:
                rules.read_form(bs)
            self.assertEqual(caught.exception.args, (number,))
        self.assertEqual((self.row("S4"), self.row("S5")), ("18", "17; 18"))


if __name__ == "__main__":
    unittest.main()
