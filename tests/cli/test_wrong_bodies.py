"""Wrong bodies, those that the gate tries and the others: each can be applied to the code as it is, by
a name of its own; what `make wrong-bodies` tries and says, by a toolchain that only says what it was
asked; and that the tests are there which find what no proof refuses."""

import csv
import os
import re
import shutil
import subprocess
import sys
import unittest

from program import ROOT, ProgramTest

sys.path.insert(0, str(ROOT / "tools"))

import wrong_bodies

CRATES = sorted(path for path in (ROOT / "crates").iterdir() if path.is_dir())

# What the gate tries takes some 20 s of processor each, and a crate of which any is tried one proof
# more: so many are worth it, beside the proofs within the time that the gate has.
MOST_OF_THE_GATE = 110

# Mistakes that no contract speaks of. Each was planted once, and failed the tests beside it.
MISTAKES = ROOT / "tests" / "mistakes.csv"

# The names that rt takes, and the files that an edit may change.
NAME = re.compile(r"[A-Za-z0-9_-]+\.edit")
FILE = re.compile(r"(src|specs|proofs)/[\w/]+\.(rt|antt)")

# A toolchain: `rt` tells where it lies, and says of each wrong body what stands in it.
RT = """\
#!/usr/bin/env python3
import sys
from pathlib import Path

if sys.argv[1:] == ["doc"]:
    print(Path(sys.argv[0]).parent.parent / "START-HERE.md")
    sys.exit()
verb, crate = sys.argv[1:]
assert verb == "must-fail"
for low in {"high": ["low", "other_low"], "low": []}[crate]:
    room = Path("crates", low, "out", "rlib")
    assert (room / f"{low}.rlib" / "whole").exists()
    assert (room / "stamp").read_text() == f"sum_of_{low}"
assert Path("crates", crate, "src", "lib.rt").exists()
for edit in sorted(Path("crates", crate, "must-fail").iterdir()):
    if edit.read_text():
        print(f"rt: must-fail {crate}/{edit.name}: {edit.read_text()}")
print("the last line")
"""
RTLIB = """\
from pathlib import Path


class Crate:
    def __init__(self, name):
        self.name = name

    def stamp(self):
        return f"sum_of_{self.name}"


def crates_below(folder):
    return [Crate(path.name) for path in sorted(Path(folder, "crates").iterdir())]
"""

REFUSED = "refused, as it must be: src/lib.rt:3:1: error: an open goal"
AT_A_PROOF = "refused, as it must be: ./proofs/lib/one/Answers.antt:9:2: error: expected a pair"
FOR_A_NAME = (
    "refused, as it must be (only because a proof file names what the edit took away, so this says "
    "little of the contract: change a value and keep the names): proofs/Lib.antt:1:1: error"
)
NOT_REFUSED = "NOT REFUSED: the crate is still proved with this edit"


def flaw(crate, edit):
    """Why rt could not apply an edit, or nothing: each text that it changes stands once, when those
    before it are changed."""
    texts, file, old, pairs = {}, None, None, 0
    for line in edit.read_text().splitlines():
        kind, _, text = line.partition(":")
        text = text.removeprefix(" ")
        if kind == "file":
            file = text.strip()
            if not FILE.fullmatch(file) or not (crate / file).is_file():
                return f"there is no file {file}"
            texts.setdefault(file, (crate / file).read_text())
        elif kind == "old":
            old = text
        elif kind == "new":
            if not file or not old:
                return "a text has nothing to stand for"
            if texts[file].count(old) != 1:
                return f"{texts[file].count(old)} times in {file}: {old}"
            texts[file] = texts[file].replace(old, text)
            old, pairs = None, pairs + 1
        else:
            return f"a line of no kind: {line}"
    return None if pairs and not old else "a text is not changed"


class KeptTest(unittest.TestCase):
    def test_each_edit_can_be_applied(self):
        for crate in CRATES:
            for edit in wrong_bodies.edits(crate):
                with self.subTest(f"{crate.name}/{edit.name}"):
                    self.assertIsNone(flaw(crate, edit))

    def test_the_folders_have_edits_of_plain_names_alone_and_none_in_both(self):
        for crate in CRATES:
            names = [path.name for name in wrong_bodies.FOLDERS for path in crate.glob(f"{name}/*")]
            with self.subTest(crate.name):
                self.assertEqual([], [name for name in names if not NAME.fullmatch(name)])
                self.assertEqual(sorted(set(names)), sorted(names))

    def test_the_gate_tries_no_more_than_it_has_time_for(self):
        tried = [edit for crate in CRATES for edit in (crate / wrong_bodies.TRIED).glob("*.edit")]
        self.assertLessEqual(len(tried), MOST_OF_THE_GATE)


def tests_of(where):
    """What the functions of a crate of tests are called, or those of a file beside this one."""
    files = [*ROOT.glob(f"crates/{where}/src/**/*.rt"), *ROOT.glob(f"tests/cli/{where}.py")]
    return {name for path in files for name in re.findall(r"\b(?:def|fn) (\w+)", path.read_text())}


class MistakesTest(unittest.TestCase):
    def test_each_test_that_finds_a_mistake_is_there(self):
        with open(MISTAKES, newline="", encoding="utf-8") as file:
            rows = [*csv.DictReader(file)]
        self.assertGreater(len(rows), 30)
        for row in rows:
            with self.subTest(row["mistake"]):
                found = tests_of(row["where"])
                self.assertTrue(found)
                self.assertLessEqual(set(row["test"].split()), found)


class ToolTest(ProgramTest):
    def setUp(self):
        super().setUp()
        for name in ("prove.py", "wrong_bodies.py"):
            self.put(f"tools/{name}", (ROOT / "tools" / name).read_text())
        self.put("crates.txt", "low:\nother_low: thiserror\nhigh: low other_low\nbare: low\n")
        for crate in ("low", "other_low", "high", "bare"):
            self.put(f"crates/{crate}/src/lib.rt", "one\n")
        for crate in ("low", "other_low"):
            self.put(f"build/made/{crate}.rlib/whole", "")
        self.put("kit/bin/rt", RT)
        self.put("kit/bin/rtlib.py", RTLIB)
        (self.folder / "kit" / "bin" / "rt").chmod(0o755)
        self.put("crates/high/must-fail/one.edit", REFUSED)
        self.put("crates/high/wrong-bodies/two.edit", REFUSED)
        self.put("crates/low/wrong-bodies/three.edit", AT_A_PROOF)

    def put(self, path, text):
        (self.folder / path).parent.mkdir(parents=True, exist_ok=True)
        (self.folder / path).write_text(text)

    def tried(self, *words):
        """The status of the tool, and what it prints."""
        environment = {**os.environ, "RT": str(self.folder / "kit" / "bin" / "rt")}
        tool = [sys.executable, str(self.folder / "tools" / "wrong_bodies.py"), *words]
        done = subprocess.run(tool, env=environment, capture_output=True, text=True, timeout=60)
        return done.returncode, done.stdout.splitlines(), done.stderr

    def test_the_edits_of_both_folders_are_tried_over_the_libraries_that_are_made(self):
        said = [
            "crates: 1, wrong bodies: 2; a crate answers at its end",
            f"high/one: {REFUSED}",
            f"high/two: {REFUSED}",
            "2 refused, 0 failed",
        ]
        self.assertEqual((0, said, ""), self.tried("high"))

    def test_with_no_crate_named_all_are_tried(self):
        status, said, _ = self.tried("--jobs", "2")
        self.assertEqual((0, "3 refused, 0 failed"), (status, said[-1]))
        self.assertEqual(
            ["", "refused in a proof alone: 1", f"  low/three: {AT_A_PROOF}"], said[-4:-1]
        )

    def test_one_that_is_not_refused_fails_and_one_refused_for_a_name_is_listed(self):
        self.put("crates/low/must-fail/four.edit", NOT_REFUSED)
        self.put("crates/low/must-fail/five.edit", FOR_A_NAME)
        self.put("crates/low/must-fail/six.edit", "")
        status, said, _ = self.tried("low")
        self.assertEqual(
            [
                "refused in a proof alone: 1",
                f"  low/three: {AT_A_PROOF}",
                "",
                "refused only for a name: 1",
                f"  low/five: {FOR_A_NAME}",
                "",
                "not refused: 2",
                f"  low/four: {NOT_REFUSED}",
                said[-2],
                "2 refused, 2 failed",
            ],
            said[-10:],
        )
        self.assertEqual(1, status)
        self.assertRegex(said[-2], r"^  low/six: NOT TRIED: .*the last line$")

    def test_a_crate_that_has_none_and_one_below_that_is_not_made_are_told(self):
        status, said, error = self.tried("bare")
        self.assertEqual((2, []), (status, said))
        self.assertIn("no wrong bodies are kept for bare", error)
        shutil.rmtree(self.folder / "build" / "made" / "other_low.rlib")
        status, said, error = self.tried("high")
        self.assertEqual((1, []), (status, said))
        self.assertIn("other_low is not proved", error)


if __name__ == "__main__":
    unittest.main()
