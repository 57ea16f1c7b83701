"""The gate's ear: what it takes from the lines of `rt ci`, and what it says of them: crates proved,
wrong bodies and why they were refused, notes, failures, counts; which times it keeps, and what it
says of them at its next start."""

import io
import json
import os
import sys
import time
import unittest
from unittest import mock

from program import ROOT, ProgramTest

sys.path.insert(0, str(ROOT / "tests"))

import gate

# What `rt ci` prints of two crates, of which one stands on the other, and of a third that fails.
PROVED = [
    "== low\n",
    "rt: note: src/lib.rt has no line #![tactic(auto)], which each crate begins with\n",
    "logic=proved functions=12\n",
    "rt: low proved\n",
    "== low: its tests\n",
    "rt: low: its tests are proved\n",
    "rt: high proved\n",
    "rt: low: trying its must-fail edits (2)\n",
]
FAILURES = [
    "rt: third NOT PROVED\n",
    "rt: third NOT PROVED: its library low failed\n",
    "rt: third: its tests are NOT PROVED\n",
    "rt: must-fail low/kept.edit: NOT REFUSED: the crate is still proved with this edit\n",
    "rt: must-fail low/old.edit: BAD EDIT: the text that it replaces is not there\n",
    "rt: FAILED: third low/kept.edit low/old.edit\n",
]

# What it says of wrong bodies that are refused: three, of which two only for a name that is gone.
BY_NAME = "refused, as it must be (only because a proof file names what the edit took away, so this"
REFUSED = [
    "rt: must-fail low/kept.edit: refused, as it must be: src/lib.rt:3:1: error: an open goal\n",
    f"rt: must-fail low/name.edit: {BY_NAME} says little of the contract: ..): proofs/A.antt\n",
    f"rt: must-fail high/name.edit: {BY_NAME} says little of the contract: ..): proofs/B.antt\n",
]

# What a run keeps of the whole.
COUNTED = ["minutes", "processors", "wrong_bodies"]

# Lines that tell of nothing of that kind.
OTHERS = [
    "\n",
    "low proved\n",
    " rt: low proved\n",
    "rt: low proved, but for one\n",
    "rt: low: its tests passed\n",
    "must-fail low/kept.edit: refused, as it must be: src/lib.rt:3:1: error\n",
    "src/lib.rt:3:1: note: low proved\n",
    "FAILED: low\n",
    "rt: ok; handles allowed: read write\n",
    "4 passed, 0 failed\n",
]


class NoPage:
    """A page that only says how often it was begun."""

    begun = 0

    def begin(self):
        self.begun += 1


class ProgressTest(unittest.TestCase):
    def progress(self):
        """The progress of the three crates, of which two have wrong bodies."""
        progress = gate.Progress()
        progress.wrong = {"low": 2, "high": 5, "third": 0}
        return progress

    def hear(self, progress, lines, minutes=0.0):
        """Hears lines so many minutes after the start."""
        progress.start = time.monotonic() - 60 * minutes
        for line in lines:
            progress.hear(line)

    def test_it_knows_all_crates_and_their_wrong_bodies(self):
        progress = gate.Progress()
        folders = {path.name for path in (ROOT / "crates").iterdir() if (path / "src").is_dir()}
        self.assertEqual(folders, set(progress.wrong))
        edits = list(ROOT.glob("crates/*/must-fail/*.edit"))
        self.assertEqual(len(edits), sum(progress.wrong.values()))
        self.assertEqual(list(progress.wrong), progress.lacking())
        self.assertIn("refusal_places", progress.of_page)
        self.assertLess(progress.of_page, folders)

    def test_it_says_how_far_the_proofs_are(self):
        progress = self.progress()
        for lines, minutes, proved, tests, wrong in [
            ([], 0, "not yet proved: low, high, third", 0, "0 crates, 0"),
            (PROVED[:3], 1, "not yet proved: low, high, third", 0, "0 crates, 0"),
            (PROVED[:4], 2, "not yet proved: high, third", 0, "0 crates, 0"),
            (PROVED[4:6], 3, "not yet proved: high, third", 1, "0 crates, 0"),
            (PROVED[6:], 61, "not yet proved: third", 1, "1 crates, 2"),
            (["rt: third proved\n"], 90, "all crates proved", 1, "1 crates, 2"),
        ]:
            self.hear(progress, lines, minutes)
            said = f"gate: {minutes} min: {proved}; tests of {tests}; "
            said += f"wrong bodies begun: those of {wrong} of 7"
            self.assertEqual(said, progress.line())
        self.assertEqual([], progress.failed)

    def test_at_its_end_it_says_when_each_was_done(self):
        progress = self.progress()
        self.hear(progress, PROVED[:4], 1.02)
        self.hear(progress, PROVED[4:], 62.53)
        self.assertEqual(
            [
                "minutes                     proved   tests      wrong bodies begun",
                "low                            1.0    62.5                62.5 (2)",
                "high                          62.5                                ",
                "third                                                             ",
            ],
            list(progress.times()),
        )

    def test_notes_and_failures_are_kept_as_they_were_printed(self):
        progress = self.progress()
        self.hear(progress, [*PROVED, *OTHERS])
        self.assertEqual(([PROVED[1].rstrip("\n")], []), (progress.notes, progress.failed))
        self.hear(progress, FAILURES)
        self.assertEqual([line.rstrip("\n") for line in FAILURES], progress.failed)
        self.assertEqual(["third"], progress.lacking())

    def test_wrong_bodies_that_are_refused_for_a_name_alone_are_counted(self):
        progress = self.progress()
        for lines, refused, by_name in [([], 0, 0), (REFUSED[:2], 2, 1), (REFUSED, 5, 3)]:
            self.hear(progress, [*PROVED, *lines, *OTHERS, *FAILURES])
            self.assertEqual((refused, by_name), (progress.refused, progress.refused_by_name))
        self.assertIn("5 wrong bodies were refused, 3 of them only because ", progress.refusals())

    def test_other_lines_tell_of_nothing(self):
        progress = self.progress()
        self.hear(progress, OTHERS)
        heard = progress.proved, progress.tested, progress.begun, progress.notes, progress.failed
        self.assertEqual(({}, {}, {}, [], []), heard)


class TimesTest(ProgramTest):
    def setUp(self):
        super().setUp()
        self.times = self.folder / "times.json"
        patched = mock.patch.object(gate, "TIMES", self.times)
        patched.start()
        self.addCleanup(patched.stop)

    def test_the_times_of_a_run_are_those_that_the_next_one_says(self):
        progress = gate.Progress()
        progress.wrong = {"low": 2, "high": 5}
        progress.start = time.monotonic() - 60 * 61.04
        for line in PROVED:
            progress.hear(line)
        kept = progress.kept()
        crates = {"low": ["proved", "tests", "wrong bodies begun"], "high": ["proved"]}
        self.assertEqual(crates, {crate: [*at] for crate, at in kept["crates"].items()})
        self.assertEqual({61.0}, {at for one in kept["crates"].values() for at in one.values()})
        self.assertEqual((61.0, gate.processors(), 7), tuple(kept[one] for one in COUNTED))
        self.times.write_text(json.dumps(kept))
        said = f"the last run here took 61 min on {gate.processors()} processors, "
        self.assertEqual(f"{said}of commit {gate.commit()} with 7 wrong bodies", gate.last_run())

    def test_where_no_run_has_passed_it_says_what_the_page_has(self):
        page, said = self.folder / "page.md", "no run here has passed yet"
        has_measured = "; docs/TESTS.md has measured 95 min on 4 threads"
        for row, more in [
            ("| `make test` | 95 min | 4 threads |", has_measured),
            ("| `make test` | 95 min <!-- a note --> | 4 threads |", has_measured),
            ("| `make test` | not measured yet | |", ""),
        ]:
            page.write_text(f"| `make run` | 18 min 35 s | 4 threads |\n{row}\n")
            for text in (None, "", "{}", "[]", '{"minutes": "long"}'):
                with self.subTest(row, text=text), mock.patch.object(gate, "TESTS_PAGE", page):
                    self.times.unlink(missing_ok=True)
                    if text is not None:
                        self.times.write_text(text)
                    self.assertEqual(said + more, gate.last_run())

    def test_the_page_of_tests_has_the_place_of_its_time(self):
        page = gate.TESTS_PAGE.read_text()
        self.assertEqual(1, page.count("\n| `make test` | "))
        self.assertEqual("not measured yet" not in page, bool(gate.MEASURED.search(page)))

    def run_of(self, *, failed_proofs, failed_tests):
        """The gate's counts, where so much failed; nothing is run."""
        counts = gate.command_line.Counts(3, failed_tests, [])
        page = mock.Mock(failure=lambda: [])
        with (
            mock.patch.object(gate, "proofs_passed_and_failed", return_value=(4, failed_proofs)),
            mock.patch.object(gate, "Page", return_value=page),
            mock.patch.object(gate, "library_failure", return_value=[]),
            mock.patch.object(gate, "take_program"),
            mock.patch.object(gate.command_line, "run", return_value=counts),
            mock.patch.object(sys, "stdout", io.StringIO()) as said,
        ):
            return gate.run_all()[:2], said.getvalue()

    def test_only_a_run_that_passes_keeps_its_times(self):
        for failed_proofs, failed_tests in [(1, 0), (0, 1), (0, 0)]:
            with self.subTest(failed_proofs=failed_proofs, failed_tests=failed_tests):
                counts, said = self.run_of(failed_proofs=failed_proofs, failed_tests=failed_tests)
                is_well = counts[1] == 0
                self.assertEqual(not failed_proofs and not failed_tests, is_well)
                self.assertEqual(is_well, self.times.exists())
                self.assertEqual(is_well, "times.json keeps the times" in said)
                self.assertTrue(said.startswith("gate: no run here has passed yet"), said)


class ProofsTest(ProgramTest):
    def counts(self, lines, status):
        """What the gate counts where `rt ci` prints these lines and ends so; and whether it began
        the page."""
        rt, printed = self.folder / "rt", self.folder / "printed"
        printed.write_text("".join(lines))
        rt.write_text(f'#!/bin/sh\n[ "$*" = ci ] || exit 9\ncat "{printed}"\nexit {status}\n')
        rt.chmod(0o755)
        progress, page = gate.Progress(), NoPage()
        progress.wrong, progress.of_page = {"low": 2, "high": 5, "beside": 0}, {"low", "high"}
        with mock.patch.dict(os.environ, {"RT": str(rt)}), open(os.devnull, "w") as nowhere:
            with mock.patch.object(sys, "stdout", nowhere):
                found = gate.proofs_passed_and_failed(progress, page, str(self.folder))
        return found, page.begun > 0

    def test_a_run_is_counted_by_its_last_line_and_its_status(self):
        for name, lines, status, expected in [
            ("all is well", [*PROVED, "4 passed, 0 failed\n"], 0, ((4, 0), True)),
            ("one is lacking", [*PROVED[:4], "3 passed, 1 failed\n"], 1, ((3, 1), False)),
            ("no counts", PROVED, 0, ((0, 1), True)),
            ("no counts, and it fails", [], 2, ((0, 1), False)),
            ("its status says otherwise", [*PROVED, "4 passed, 0 failed\n"], 1, ((4, 1), True)),
        ]:
            with self.subTest(name):
                self.assertEqual(expected, self.counts(lines, status))


if __name__ == "__main__":
    unittest.main()
