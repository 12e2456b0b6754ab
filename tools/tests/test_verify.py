"""tools/verify: parts by name, and what is missing."""
import os
import subprocess
import sys
import tempfile
import unittest

from paths import ROOT


def verify(*parts, **more):
    """What tools/verify says, and its status."""
    ran = subprocess.run([sys.executable, ROOT / "tools/verify", *parts], env={**os.environ, **more}, capture_output=True, text=True)
    return ran.returncode, ran.stdout.splitlines(), ran.stderr


class TestVerify(unittest.TestCase):
    def test_a_part_that_passes(self):
        status, lines, _ = verify("bindings")
        self.assertEqual((status, lines[-1]), (0, "1 passed, 0 failed"))
        self.assertRegex(lines[0], r"^bindings +passed +\d+ s  headers and declarations")

    def test_what_is_missing_has_failed(self):
        with tempfile.TemporaryDirectory() as nothing:
            status, lines, _ = verify("bindings", "rust", PATH=nothing)
        self.assertEqual((status, lines[-1]), (1, "1 passed, 1 failed"))
        self.assertRegex(lines[1], r"^rust +FAILED +\d+ s  cargo is missing$")

    def test_no_source(self):
        status, lines, _ = verify("sabotage", OURISCADO_SRC="/no/such/folder")
        self.assertEqual((status, lines[-1]), (1, "0 passed, 1 failed"))
        self.assertIn("missing", lines[0])

    def test_an_unknown_part(self):
        status, lines, said = verify("bindngs")
        self.assertEqual((status, lines), (1, []))
        self.assertIn("there is no part bindngs; there are names, bindings", said)


if __name__ == "__main__":
    unittest.main()
