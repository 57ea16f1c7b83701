"""The compiler refuses a caller that still has a block in its hands when it asks for a further line."""

import os
import shutil
import subprocess
import tempfile
import unittest
from pathlib import Path

from program import ROOT, TIME, TIME_OF_A_TEST, TimedTest

BELOW = ("byte_ends", "gsi_word", "gsi_file")

CALLER = """//! Holds two lines at once.
#![tactic(auto)]

use byte_ends::Source;
use gsi_file::Lines;

pub fn hold_two<R: Source>(lines: &mut Lines<R>) -> bool {
    let first = lines.next();
    let second = lines.next();
    first.is_ok() && second.is_ok()
}
"""


class HeldLineTest(TimedTest):
    def test_the_next_line_cannot_be_asked_for_while_a_block_is_held(self):
        with tempfile.TemporaryDirectory() as folder:
            top = Path(folder)
            for name in BELOW:
                shutil.copytree(ROOT / "crates" / name, top / "crates" / name, ignore=shutil.ignore_patterns("out"))
            caller = top / "crates" / "hold_two" / "src"
            caller.mkdir(parents=True)
            (caller / "lib.rt").write_text(CALLER)
            listed = (ROOT / "crates.txt").read_text().splitlines()
            below = [line for line in listed if line.split(":")[0] in BELOW]
            (top / "crates.txt").write_text("\n".join([*below, "hold_two: byte_ends gsi_file", ""]))
            subprocess.run(["git", "init", "-q", folder], check=True, timeout=TIME)
            command = [os.environ.get("RT", "rt"), "check", "--jobs", "1"]
            options = {"capture_output": True, "text": True, "timeout": TIME_OF_A_TEST}
            check = subprocess.run(command, cwd=caller.parent, **options)
        self.assertNotEqual(check.returncode, 0)
        self.assertIn("borrow-e0499", check.stdout + check.stderr)


if __name__ == "__main__":
    unittest.main()
