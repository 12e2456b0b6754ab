"""The lines of boundaries: how fields are spelled, single calls as docs/FORMAT.md answers them, and that the files in the repository are what is computed."""
import shutil
import sys
import tempfile
import unittest
from pathlib import Path
from unittest import mock

import paths
import boundaries
from boundaries import CALLS, DATA, ROOM, Text, expected, files, numbers, runs
from rules import padded


def line(name, given=(), bs=(), ns=()):
    """The line of one call, by its fields."""
    text = Text()
    text.call(name, given, bs, ns)
    return text.lines[0].split("|")


class TestFields(unittest.TestCase):
    def test_numbers(self):
        self.assertEqual(numbers([]), "")
        self.assertEqual(numbers([5, 300]), "5 12c ")
        self.assertEqual(numbers([1, 2, 3, 4, 9]), "1:1:3 9 ")
        self.assertEqual(numbers([7, 7, 7]), "7:0:2 ")
        self.assertEqual(numbers([9, 8, 7]), "9:ffffffffffffffff:2 ")

    def test_runs(self):
        self.assertEqual(runs([]), "")
        self.assertEqual(runs([0, 0]), "")
        self.assertEqual(runs([5, 5, 0, 1, 0]), "010500000001")
        self.assertEqual(runs([9] * 257), "ff09" + "0009")


class TestCalls(unittest.TestCase):
    def test_a_slab_is_written(self):
        head, _, before, ns, told, after, _ = line("encode_slab", [], [0xEE] * 6, [5, 300, 301])
        self.assertEqual(head, "0f000006")
        self.assertEqual((before, ns, told), ("05ee", "5 12c 12d ", "6 "))
        self.assertEqual(after, "0003" + "0000" + "0005" + "00a7" + "0002" + "0001")

    def test_a_refused_call_leaves_its_buffer(self):
        head, _, before, _, told, after, _ = line("encode_slab", [], [0xEE] * 5, [5, 300, 301])
        self.assertEqual((head, told, after), (f"{CALLS['encode_slab'][0]:02x}{33:02x}0005", "0 ", before))

    def test_refusals_of_a_stored_stream(self):
        for bs, count, refusal in (([0], 1, 20), ([5, 0], 2, 21), ([5], 2, 17), ([0x80] * 11, 1, 18), ([5, 1], 2, 0), ([5, 1], 2, 34)):
            room = 1 if refusal == 34 else 4
            self.assertEqual(int(line("decode_stream", [count], bs, [9] * room)[0][2:4], 16), refusal)

    def test_padded_numbers(self):
        for bs, count, wanted in (
            ([], 0, 0), ([5, 1], 2, 0), ([0], 1, 0), ([0x80, 0], 1, 1), ([0x81, 0, 2], 2, 1), ([5, 0x81, 0], 1, 0),
            ([0x85, 0, 0x81, 0x80, 0, 0x63], 3, 2), ([0xFF, 0, 0x80, 1], 2, 1), ([0x85] + [0x80] * 8 + [0], 1, 1),
        ):
            self.assertEqual(padded(bs, count), wanted, bs)

    def test_full_pages(self):
        ones = list(range(1, 4089))
        self.assertEqual(line("pack_page", [0], [7] * 4096, ones)[0], "2e001000")
        self.assertEqual(line("pack_page", [0], [7] * 4096, ones + [4089])[0], "2e211000")
        self.assertEqual(line("pack_extent", [0, 8192, 3], [7] * 4096, ones[:4072])[0], "2f001000")
        self.assertEqual(line("pack_extent", [0, 8192, 3], [7] * 4096, ones[:4073])[0], "2f211000")


class TestFiles(unittest.TestCase):
    def test_files_are_what_is_computed(self):
        for name, text in files().items():
            self.assertLessEqual(len(text), ROOM)
            self.assertEqual((DATA / name).read_text(), text, name)

    def test_counted_lines(self):
        self.assertEqual(expected(["a\nb\n=two\n", "c\n=one\n"]), "two: 2 replayed, 0 differ\none: 1 replayed, 0 differ\n")

    def test_check_fails_on_a_file_that_differs(self):
        with tempfile.TemporaryDirectory() as room:
            data = Path(room) / "data"
            shutil.copytree(DATA, data)
            shutil.copy(DATA.parent / "stdout", room)
            with mock.patch.object(boundaries, "DATA", data), mock.patch.object(sys, "argv", ["boundaries.py", "--check"]):
                boundaries.main()
                (data / "b0").write_text("")
                with self.assertRaisesRegex(SystemExit, "b0 isn't what the rules give"):
                    boundaries.main()
            self.assertEqual((data / "b0").read_text(), "")


if __name__ == "__main__":
    unittest.main()
