"""The scripts and tests are clean by pyflakes and mypy, where these are there."""

import re
import shutil
import subprocess
import sys
import unittest

from program import ROOT, TimedTest

FOLDERS = ["bench", "capi", "conformance", "examples", "page", "tests", "tools"]
FILES = sorted(path for folder in FOLDERS for path in (ROOT / folder).rglob("*.py"))

# More than either takes, in seconds.
TIME = 300

# A function that has a name has it by `def`.
NAMED_LAMBDA = re.compile(r"^\s*\w+ = lambda\b", re.MULTILINE)


class PythonTest(TimedTest):
    def check(self, module, *words):
        """Runs a checker: the module of this Python, or the program of its name."""
        module_words = [sys.executable, "-m", module]
        has_module = subprocess.run([*module_words, "--version"], capture_output=True, timeout=TIME).returncode == 0
        program = shutil.which(module) or shutil.which(f"{module}3")
        if not has_module and not program:
            self.skipTest(f"no {module} is found")
        command = module_words if has_module else [program]
        done = subprocess.run([*command, *words], cwd=ROOT, capture_output=True, text=True, timeout=TIME)
        self.assertEqual(0, done.returncode, done.stdout + done.stderr)

    def test_pyflakes_has_no_note(self):
        self.check("pyflakes", *map(str, FILES))

    def test_mypy_has_no_error(self):
        """mypy.ini says how it is run, and which modules state the types of all functions."""
        self.check("mypy")

    def test_no_lambda_has_a_name(self):
        for path in FILES:
            with self.subTest(str(path.relative_to(ROOT))):
                self.assertIsNone(NAMED_LAMBDA.search(path.read_text()))


if __name__ == "__main__":
    unittest.main()
