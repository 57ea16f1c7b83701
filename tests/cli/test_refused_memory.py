"""Refused memory: each allocation of a run in turn, alone and with all that follow it.

A run with a refusal answers that memory ran out, with nothing on standard output, or what it
answers with ample memory. Without a C compiler the library can't be built, and its tests are
skipped.
"""

import itertools
import resource
import signal
import subprocess
import unittest

import preload
import test_generated
from against_model import FIELD, SHEET, TABLE
from processes import in_room
from program import SWEEP, ProgramTest, answer_of, side_by_side
from worked import JOB

NO_MEMORY = (1, b"", b"refused: out of memory\n")

# The status of the loader where it finds no room for the program.
NOT_LOADED = 127

# No run makes more allocations than this: what is kept grows by doubling.
MOST_CALLS = 10_000

# How many runs are started before it is looked whether one met no refusal.
BATCH = 64

LINES = FIELD.splitlines(keepends=True)

# The files of the runs.
FILES = {
    "field": FIELD,
    "sheet": SHEET,
    "empty": b"",
    "face_twice": b"".join(LINES[:3]) + b"110004+0000000A 21.102+00000001 22.102+10000000",
    "first_word": FIELD.replace(b"110011", b"510011"),
    "unlike": SHEET.replace(b"obs,1,A,6", b"obs,1,A,7"),
    "no_number": SHEET.replace(b"-20", b"-0"),
    "version_2": SHEET.replace(b"sheet,1,", b"sheet,2,"),
    "table": TABLE,
    "apart": TABLE.replace(b"50.", b"51."),
    "no_direction": TABLE.replace(b"50.", b"+50."),
    "quoted_table": TABLE.replace(b"A", b'"A"'),
    "job": JOB,
    "unmarked": JOB[:-50],
    "quoted": SHEET.replace(b"S1", b'"S1"').replace(b"A", b'"A"'),
    "large": test_generated.lines(test_generated.station("S1", 40, 100)),
}

# The readings of the largest station, by targets.
FILES["large_job"] = b"".join(
    line for line in FILES["large"].splitlines(keepends=True) if line.startswith(b"11")
)

# Each run by its words; {name} is the path of a file.
RUNS = [
    "",
    "words {field}",
    "words {empty}",
    "words {first_word}",
    "words {face_twice}",
    "list {field}",
    "list --two-c 10 --two-i=2 {field}",
    "list {face_twice}",
    "list {first_word}",
    "list {empty}",
    "list --csv {field}",
    "list --csv {job}",
    "list --csv {face_twice}",
    "list --csv {empty}",
    "means {field} S1",
    "means {field} S2",
    "means --two-c 1000000 {face_twice} S1",
    "mark --station S1 {job}",
    "mark {job}",
    "mark --station S1 {field}",
    "mark --station S1 {unmarked}",
    "mark --station S1 {first_word}",
    "mark --station S1 {empty}",
    "directions {field} S1",
    "directions --decimals 1 {field} S2",
    "directions {face_twice} S1",
    "directions --residual 0 {field} S1",
    "directions --residual 1 {field} S1",
    "report {field} S1",
    "report {field} S2",
    "report {face_twice} S1",
    "report --csv {field} S1",
    "report --csv {field} S2",
    "report --csv {face_twice} S1",
    "report --sha256 {field} S1",
    "report --table {table} {field} S1",
    "report --sha256 --table {apart} {field} S1",
    "report --table {no_direction} {field} S1",
    "report --table {table} {field} S2",
    "report --residual 0 {field} S1",
    "report --csv --residual 0 {field} S1",
    "report --residual 0 --table {apart} {field} S1",
    "report --residual 1 --table {table} {field} S1",
    "compare {field} S1 {table}",
    "compare {field} S1 {apart}",
    "compare --within=0 {field} S1 {quoted_table}",
    "compare {field} S1 {no_direction}",
    "compare {field} S1 {empty}",
    "compare {field} S2 {table}",
    "compare --residual 0 {field} S1 {apart}",
    "compare --residual 1 {field} S1 {table}",
    "differences {field} S1 {table}",
    "differences {field} S1 {apart}",
    "differences {field} S1 {quoted_table}",
    "differences {field} S1 {no_direction}",
    "differences {field} S2 {table}",
    "differences --residual 0 {field} S1 {table}",
    "check {field} {sheet}",
    "check --residual 0 {field} {sheet}",
    "check --two-c 2000 --two-i 2000 --residual 2000 {field} {version_2}",
    "check {field} {quoted}",
    "check {field} {unlike}",
    "check {field} {no_number}",
    "check {field} {empty}",
    "check {empty} {sheet}",
    "check {face_twice} {sheet}",
    "--help",
    "check --help",
    "nonsense",
    "explain",
    "explain TwoC",
    "explain nonsense",
    "check --two-c 1000001 {field} {sheet}",
    "compare --within 1000001 {field} S1 {table}",
    "compare --residual 2001 {field} S1 {table}",
    "list {folder}/missing",
    "list {folder}",
]

# Runs over the largest station, its sheet of some four thousand rows, and its table of a hundred.
LARGE_RUNS = [
    "words {large}",
    "list {large}",
    "list --csv {large}",
    "means {large} S1",
    "check {large} {large_sheet}",
    "directions {large} S1",
    "report {large} S1",
    "report --csv {large} S1",
    "report --table {large_table} {large} S1",
    "compare {large} S1 {large_table}",
    "differences {large} S1 {large_table}",
    "mark --station S1 {large_job}",
]


class RefusedMemoryTest(ProgramTest):
    def setUp(self):
        super().setUp()
        self.paths = {"folder": self.folder}
        for name, content in FILES.items():
            self.paths[name] = self.folder / name
            self.paths[name].write_bytes(content)
        for name, command in [("large_sheet", "means"), ("large_table", "directions")]:
            self.paths[name] = self.folder / name
            self.paths[name].write_bytes(answer_of([command, self.paths["large"], "S1"])[1])

    def words_of(self, run):
        return run.format(**self.paths).split()

    def refused_run(self, library, run, call, refuses_all):
        """The answer of a run in which this call is refused; none where there was no such call."""
        met = self.folder / f"met-{call}"
        env = {"REFUSE_CALL": call, "REFUSE_ALL": int(refuses_all), "REFUSE_MET": met}
        env = {name: str(value) for name, value in env.items()}
        answer = answer_of(self.words_of(run), FIELD, env={"LD_PRELOAD": str(library), **env})
        if not met.exists():
            return None
        met.unlink()
        return answer

    def refused_in_turn(self, library, run, refuses_all=False):
        """The answers where one call after the other is refused, until a run meets no refusal."""
        answers = []

        def refused(call):
            return self.refused_run(library, run, call, refuses_all)

        for first in range(1, MOST_CALLS, BATCH):
            batch = list(side_by_side(refused, range(first, first + BATCH)))
            answers += itertools.takewhile(lambda answer: answer is not None, batch)
            if None in batch:
                return answers
        self.fail(f"{run}: a run makes more than {MOST_CALLS} allocations")

    def check_refusals(self, run, answers):
        """Each answer is the one with ample memory, or out of memory; and the latter was met."""
        ample = answer_of(self.words_of(run), FIELD)
        self.assertLessEqual(set(answers), {ample, NO_MEMORY})
        self.assertIn(NO_MEMORY, answers)

    def test_each_allocation_refused(self):
        library = preload.built("refuse_allocation")
        for run in RUNS:
            with self.subTest(run):
                self.check_refusals(run, self.refused_in_turn(library, run))

    def test_each_allocation_and_all_after_it_refused(self):
        library = preload.built("refuse_allocation")
        for run in RUNS:
            with self.subTest(run):
                self.check_refusals(run, self.refused_in_turn(library, run, refuses_all=True))

    def test_allocations_for_the_largest_station_refused(self):
        library = preload.built("refuse_allocation")
        for run in LARGE_RUNS:
            with self.subTest(run):
                self.check_refusals(run, self.refused_in_turn(library, run))
                self.check_refusals(run, self.refused_in_turn(library, run, refuses_all=True))

    def test_a_run_without_a_refusal_is_as_ever(self):
        library = preload.built("refuse_allocation")
        for run in RUNS:
            with self.subTest(run):
                env = {"LD_PRELOAD": str(library), "REFUSE_CALL": "0"}
                preloaded = answer_of(self.words_of(run), FIELD, env=env)
                self.assertEqual(answer_of(self.words_of(run), FIELD), preloaded)

    def test_room_that_grows_for_the_largest_station(self):
        """The room of the process grows until the run has all that it wants. What comes before the
        last failure of the system is none of the program's answers."""
        step = resource.getpagesize() * (1 if SWEEP else 8)
        for run in LARGE_RUNS:
            with self.subTest(run):
                ample, answers = answer_of(self.words_of(run)), set()
                for room in range(1 << 20, 64 << 20, step):
                    answer = self.answer_in(room, run)
                    if answer == ample:
                        break
                    answers = answers | {answer} if answer else set()
                self.assertEqual(ample, answer)
                self.assertLessEqual(answers, {NO_MEMORY})

    def answer_in(self, room, run):
        """The answer in so much address space; none where the system ended the process: where the
        loader found no room, or the stack could not grow by a page."""
        try:
            answer = answer_of(self.words_of(run), preexec_fn=in_room(room))
        except (OSError, subprocess.SubprocessError):
            return None
        return None if answer[0] in (NOT_LOADED, -signal.SIGSEGV) else answer


if __name__ == "__main__":
    unittest.main()
