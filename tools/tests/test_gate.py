""".ci/run: it ends as rt ci does, and fails on a bad edit, which rt ci lets pass."""
import os
import subprocess
import tempfile
import unittest
from pathlib import Path

from paths import ROOT

RT = """\
#!/bin/sh
case $* in
version) echo "the toolchain" ;;
ci) cat "$SAID"; exit "$STATUS" ;;
esac
"""
OK = "rt: ok; handles allowed: none; must-fail edits: 3 refused{}; every proof and must-fail edit was done in this run\n5 passed, 0 failed\n"


class TestGate(unittest.TestCase):
    def gate(self, said, status=0):
        """The status of .ci/run where rt ci says that, and its lines."""
        with tempfile.TemporaryDirectory() as folder:
            rt, text = Path(folder, "rt"), Path(folder, "said")
            rt.write_text(RT)
            rt.chmod(0o755)
            text.write_text(said)
            ran = subprocess.run(["bash", ROOT / ".ci/run"], capture_output=True, text=True,
                                 env={**os.environ, "PATH": f"{folder}:{os.environ['PATH']}", "SAID": str(text), "STATUS": str(status)})
            return ran.returncode, ran.stdout.splitlines()

    def test_all_passed(self):
        for more in ("", ", 1 of them only by a limit"):
            status, lines = self.gate(OK.format(more))
            self.assertEqual((status, lines[0], lines[-1]), (0, "the toolchain", "5 passed, 0 failed"))

    def test_a_bad_edit(self):
        for more in (", 1 bad", ", 1 of them only by a limit, 12 bad"):
            self.assertNotEqual(self.gate(OK.format(more))[0], 0)

    def test_what_rt_refuses(self):
        status, lines = self.gate("rt: FAILED: table\n4 passed, 1 failed\n", 1)
        self.assertEqual((status, lines[-1]), (1, "4 passed, 1 failed"))


if __name__ == "__main__":
    unittest.main()
