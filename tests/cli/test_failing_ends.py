"""Reads and writes that fail in turn, or move a few bytes at a time, by a preloaded library.

A read that failed is not tried again, and after an end none is asked for: readers that fail or end
once and then go on get the answer of those that stop for good.
"""

import errno
import unittest
from functools import lru_cache

import model
import preload
import test_generated
import test_mark
from against_model import FIELD, SHEET, TABLE, sample
from program import PROGRAM, SWEEP, ProgramTest, answer_to, side_by_side
from worked import JOB, refused

# The words of each command; without words the field file is standard input. The report has the names
# of its files in it, which stand in the folder of the run.
COMMANDS: dict[str, list[str]] = {
    "": [],
    "words": ["words", "{field}"],
    "list": ["list", "{field}"],
    "list --csv": ["list", "--csv", "{field}"],
    "means": ["means", "{field}", "S1"],
    "check": ["check", "{field}", "{sheet}"],
    "directions": ["directions", "{field}", "S1"],
    "report": ["report", "field.gsi", "S1"],
    "report --csv": ["report", "--csv", "field.gsi", "S1"],
    "report --table": ["report", "--sha256", "--table", "table.csv", "field.gsi", "S1"],
    "compare": ["compare", "{field}", "S1", "{table}"],
    "differences": ["differences", "{field}", "S1", "{table}"],
}

# The command whose field file has no codes.
MARK = {"mark": ["mark", "--station=S1", "{job}"]}

# Those that refuse the example for its residuals.
HELD = {
    f"{command} --residual": [words[0], "--residual=0", *words[1:]]
    for command, words in COMMANDS.items()
    if command in ["directions", "report", "report --csv", "report --table", "compare", "differences"]
}


def report_with_table(field=FIELD, table=TABLE, fails=(False, False)):
    """What the report answers of these files, with their digests."""
    stated = model.ReportTable(b"table.csv", table, fails=fails[1])
    report = model.reported(field, b"field.gsi", b"S1", fails=fails[0], table=stated)
    return model.with_digests(report, (b"field.gsi", field), (b"table.csv", table))


WHOLE = {
    "": model.words(FIELD),
    "words": model.words(FIELD),
    "list": model.listed(FIELD),
    "list --csv": model.listed_rows(FIELD),
    "means": model.means(FIELD, b"S1"),
    "check": model.check(FIELD, SHEET),
    "directions": model.directions(FIELD, b"S1"),
    "report": model.reported(FIELD, b"field.gsi", b"S1"),
    "report --csv": model.reported_rows(FIELD, b"S1"),
    "report --table": report_with_table(),
    "compare": model.compared(FIELD, b"S1", TABLE),
    "differences": model.differences(FIELD, b"S1", TABLE),
    "mark": model.marked(JOB, b"S1"),
}

REFUSED_WRITE = b"refused: write failed\n"


@lru_cache(maxsize=None)
def expected_of_field(command, room, field=FIELD, fails=True):
    """What a command answers over a field file whose reads fail, or end, after so many bytes."""
    given = field[:room]
    return {
        "": lambda: model.words(given, fails=fails),
        "words": lambda: model.words(given, fails=fails),
        "list": lambda: model.listed(given, fails=fails),
        "list --csv": lambda: model.listed_rows(given, fails=fails),
        "means": lambda: model.means(given, b"S1", fails=fails),
        "check": lambda: model.check(given, SHEET, fails=(fails, False)),
        "directions": lambda: model.directions(given, b"S1", fails=fails),
        "report": lambda: model.reported(given, b"field.gsi", b"S1", fails=fails),
        "report --csv": lambda: model.reported_rows(given, b"S1", fails=fails),
        "report --table": lambda: report_with_table(given, fails=(fails, False)),
        "compare": lambda: model.compared(given, b"S1", TABLE, fails=(fails, False)),
        "differences": lambda: model.differences(given, b"S1", TABLE, fails=(fails, False)),
    }[command]()


BLANKS = b" " * 900 + b"\n"

ROWS = b"sheet,1,S1,4,\n" + b"target,,A,0,\n" * 90

# Field files and sheets of several times what the program asks for at once; of some of them a
# buffer begins with a line, of others with a part of one.
LONG_FIELDS = [
    BLANKS * 5 + FIELD + BLANKS * 9,
    b"\n" * 4_096 + FIELD + b"\n" * 5_000,
    b" " * 1_000 + b"\n" + b" " * 1_000 + b"\r\n" + FIELD * 30,
]
LONG_SHEETS = [b"\n" * 9_000 + SHEET, SHEET + b"\n" * 9_000, ROWS * 9, b"x" * 13_000]

# The places around those where a buffer is full, and others.
BUFFERS = [4_096 * n + d for n in range(4) for d in (-1_025, -1_024, -1, 0, 1, 1_023, 1_024)]
PLACES = sorted(place for place in {*BUFFERS, *range(0, 13_000, 611)} if place >= 0)


class FailingEndsTest(ProgramTest):
    def setUp(self):
        super().setUp()
        self.library = preload.built("failing_ends")
        self.field, self.sheet = self.folder / "field.gsi", self.folder / "sheet.csv"
        self.table, self.job = self.folder / "table.csv", self.folder / "job.gsi"
        self.field.write_bytes(FIELD)
        self.job.write_bytes(JOB)
        self.sheet.write_bytes(SHEET)
        self.table.write_bytes(TABLE)

    def answer(self, command, **limits):
        files = {"field": self.field, "sheet": self.sheet, "table": self.table, "job": self.job}
        args = [word.format(**files) for word in {**COMMANDS, **MARK, **HELD}[command]]
        env = {name: str(value) for name, value in limits.items()}
        with open(self.field, "rb") as field:
            env["LD_PRELOAD"] = str(self.library)
            return answer_to([PROGRAM, *args], stdin=field, env=env, cwd=self.folder)

    def failing_field(self, room, **more):
        return {"READ_PATH": self.field, "READ_ROOM": room, **more}

    def check_all(self, runs):
        """Runs each of (command, limits, expected answer)."""
        runs = list(runs)
        self.assertTrue(runs)
        answers = side_by_side(lambda run: self.answer(run[0], **run[1]), runs)
        for (command, limits, expected), answer in zip(runs, answers):
            if expected != answer:
                with self.subTest(command, **limits):
                    self.assertEqual(expected, answer)

    def test_a_field_file_that_fails_after_each_byte(self):
        runs = (
            (command, self.failing_field(room), expected_of_field(command, room))
            for room in range(len(FIELD) + 1)
            for command in COMMANDS
        )
        self.check_all(sample(runs, 4))

    def test_a_job_that_fails_or_ends_after_each_byte(self):
        """For good or once, whatever the reads before it gave."""
        for text in [JOB, b"\n" * 9_000 + JOB, JOB + b" " * 999 + b"\n" * 9_000]:
            self.job.write_bytes(text)
            places = range(len(text) + 1) if text == JOB else [*PLACES, len(text)]
            runs = (
                ("mark", {**limits, "READ_MOST": most, "READ_STOPS": stops}, expected)
                for room in places
                if room <= len(text)
                for error in [errno.EIO, 0]
                for expected in [model.marked(text[:room], b"S1", fails=error != 0)]
                for limits in [{"READ_PATH": self.job, "READ_ROOM": room, "READ_ERROR": error}]
                for most in [48, 4_096]
                for stops in [1, 1_000_000]
            )
            self.check_all(sample(runs, 7))

    def test_a_sheet_that_fails_after_each_byte(self):
        refused = (1, b"", b"refused: sheet: Read\n")
        self.check_all(
            ("check", {"READ_PATH": self.sheet, "READ_ROOM": room}, refused)
            for room in range(len(SHEET) + 1)
        )

    def test_a_table_that_fails_after_each_byte(self):
        refused = (1, b"", b"refused: table: Read\n")
        self.check_all(
            (command, {"READ_PATH": self.table, "READ_ROOM": room}, refused)
            for command in ["compare", "differences", "report --table"]
            for room in range(len(TABLE) + 1)
        )

    def test_a_table_that_fails_is_named_before_a_residual(self):
        self.check_all(
            (command, {"READ_PATH": self.table, "READ_ROOM": room}, (1, b"", b"refused: table: Read\n"))
            for command in ["compare --residual", "differences --residual", "report --table --residual"]
            for room in range(len(TABLE) + 1)
        )

    def test_a_residual_that_is_refused_meets_no_output(self):
        hint = "set 1, A: the greatest residual, above the limit of 0.000 mgon"
        answer = (1, b"", refused("adjust: Residual 1", hint))
        self.check_all((command, {"WRITE_ROOM": 0}, answer) for command in HELD)

    def test_a_table_that_fails_is_looked_at_after_its_station_was_found(self):
        for field, expected in [
            (FIELD.replace(b"410012", b"4100 2"), b"refused: block 12: Word 1\n"),
            (FIELD.replace(b"S1", b"S2"), refused("no station", "the file has S2")),
            (FIELD.replace(b"0B", b"0C"), b"refused: table: Read\n"),
        ]:
            with self.subTest(expected):
                self.field.write_bytes(field)
                for command in ["compare", "differences", "report --table"]:
                    answer = self.answer(command, READ_PATH=self.table, READ_ROOM=0)
                    self.assertEqual((1, b"", expected), answer)

    def test_a_sheet_that_fails_is_looked_at_after_the_field_file(self):
        for field, expected in [
            (FIELD.replace(b"410012", b"4100 2"), b"refused: block 12: Word 1\n"),
            (FIELD.replace(b"21.102", b"21.104", 1), b"refused: block 3: Hz Unit\n"),
            (b"", b"refused: sheet: Read\n"),
        ]:
            with self.subTest(expected):
                self.field.write_bytes(field)
                check = self.answer("check", READ_PATH=self.sheet, READ_ROOM=0)
                self.assertEqual((1, b"", expected), check)

    def test_any_error_of_a_read_is_a_fault_and_is_not_tried_again(self):
        self.check_all(
            (command, self.failing_field(40, READ_ERROR=error), expected_of_field(command, 40))
            for error in [errno.EIO, errno.EINTR, errno.EAGAIN, errno.EBADF]
            for command in COMMANDS
        )

    def stopping_once(self, command, room, most, field=FIELD):
        """Two runs over a field file of which one read fails, or one ends."""
        for error in [errno.EIO, 0]:
            expected = expected_of_field(command, room, field, fails=error != 0)
            limits = {"READ_MOST": most, "READ_ERROR": error, "READ_STOPS": 1}
            yield command, self.failing_field(room, **limits), expected

    def test_a_field_file_of_which_one_read_fails_or_ends(self):
        """At each byte, whatever the reads before it gave; those after it give the rest."""
        runs = (
            run
            for most in [1, 48, 4_096]
            for room in range(len(FIELD) + 1)
            for command in COMMANDS
            for run in self.stopping_once(command, room, most)
        )
        self.check_all(sample(runs, 10))

    def test_a_long_field_file_of_which_one_read_fails_or_ends(self):
        for field in LONG_FIELDS:
            self.field.write_bytes(field)
            runs = (
                run
                for most in [1_000, 1_000_000]
                for room in [*PLACES, len(field) - 1, len(field)]
                if room <= len(field)
                for command in COMMANDS
                for run in self.stopping_once(command, room, most, field)
            )
            self.check_all(sample(runs, 4))

    def sheet_stopping_once(self, sheet, room, most):
        """Two runs over a sheet of which one read fails, or one ends."""
        limits = {"READ_PATH": self.sheet, "READ_ROOM": room, "READ_MOST": most, "READ_STOPS": 1}
        for error in [errno.EIO, 0]:
            expected = model.check(FIELD, sheet[:room], fails=(False, error != 0))
            yield "check", {"READ_ERROR": error, **limits}, expected

    def table_stopping_once(self, table, room, most):
        """Two runs over a table of directions of which one read fails, or one ends."""
        limits = {"READ_PATH": self.table, "READ_ROOM": room, "READ_MOST": most, "READ_STOPS": 1}
        for error in [errno.EIO, 0]:
            for command, answer in [("compare", model.compared), ("differences", model.differences)]:
                expected = answer(FIELD, b"S1", table[:room], fails=(False, error != 0))
                yield command, {"READ_ERROR": error, **limits}, expected
            expected = report_with_table(table=table[:room], fails=(False, error != 0))
            yield "report --table", {"READ_ERROR": error, **limits}, expected

    def test_a_sheet_of_which_one_read_fails_or_ends(self):
        runs = (
            run
            for most in [1, 16, 4_096]
            for room in range(len(SHEET) + 1)
            for run in self.sheet_stopping_once(SHEET, room, most)
        )
        self.check_all(sample(runs, 3))

    def test_a_table_of_which_one_read_fails_or_ends(self):
        """The example's, and one of several times what the program asks for at once."""
        for table, step in [(TABLE, 1), (b"\n" * 9_000 + TABLE, 611)]:
            self.table.write_bytes(table)
            self.check_all(
                run
                for most in [1_000_000, 16]
                for room in [*range(0, len(table), step), len(table)]
                for run in self.table_stopping_once(table, room, most)
            )

    def test_a_long_sheet_of_which_one_read_fails_or_ends(self):
        for sheet in LONG_SHEETS:
            self.sheet.write_bytes(sheet)
            places = [*PLACES, len(sheet) - len(SHEET), len(sheet)]
            self.check_all(
                run
                for most in [1_000, 1_000_000]
                for room in places
                if room <= len(sheet)
                for run in self.sheet_stopping_once(sheet, room, most)
            )

    def test_an_output_that_fails_after_each_byte(self):
        runs = (
            (command, {"WRITE_ROOM": room}, (1, text[:room], REFUSED_WRITE))
            for command, (_, text, _) in WHOLE.items()
            for room in range(len(text))
        )
        self.check_all(runs)

    def test_a_long_text_of_which_one_write_fails(self):
        """One write is tried once, however much it is to take: `mark` writes 16 MB at a time. Nothing
        that would be taken after it is written."""
        sets = b"".join(test_mark.set_of("AB") for _ in range(40))
        self.job.write_bytes(sets + b"\n" * (model.LONGEST_FILE - len(sets)))
        status, whole, _ = self.answer("mark")
        self.assertEqual((0, True), (status, len(whole) > model.LONGEST_FILE))
        places = [0, 1, 4_096, 32_768, 70_001, 1_000_000, 16_000_000, len(whole) - 1]
        self.check_all(
            ("mark", {"WRITE_ROOM": room, "WRITE_STOPS": 1}, (1, whole[:room], REFUSED_WRITE))
            for room in places
        )

    def test_an_output_with_just_enough_room(self):
        self.check_all(
            (command, {"WRITE_ROOM": len(whole[1])}, whole) for command, whole in WHOLE.items()
        )

    def test_pieces_change_no_answer(self):
        self.check_all(
            (command, {"READ_MOST": most_read, "WRITE_MOST": most_written}, whole)
            for command, whole in WHOLE.items()
            for most_read in [1, 2, 3, 7, 1_000]
            for most_written in [1, 2, 16]
        )

    def test_the_largest_station_byte_by_byte(self):
        self.field.write_bytes(test_generated.lines(test_generated.station("S1", 40, 100)))
        for command in ["words", "list", "means"]:
            with self.subTest(command):
                whole = self.answer(command)
                self.assertEqual((0, b""), (whole[0], whole[2]))
                self.assertEqual(whole, self.answer(command, READ_MOST=1, WRITE_MOST=1_000))
        self.sheet.write_bytes(self.answer("means")[1])
        accepted = b"accepted S1: 40 sets, 100 targets, 4000 directions, greatest residual 0/4000\n"
        self.assertEqual((0, accepted, b""), self.answer("check", READ_MOST=1))

    def test_line_feeds_one_a_read_are_refused_at_the_limit(self):
        """At the limit a file is refused, however small its pieces; a sheet too."""
        self.field.write_bytes(b"\n" * (model.LONGEST_FILE + 1))
        refused = (1, b"", b"refused: block 1: FileTooLong\n")
        self.assertEqual(refused, self.answer("list", READ_MOST=1 if SWEEP else 64))
        self.field.write_bytes(FIELD)
        self.sheet.write_bytes(b"\n" * (model.LONGEST_SHEET + 1))
        self.assertEqual((1, b"", b"refused: sheet: TooLong\n"), self.answer("check", READ_MOST=1))
        self.sheet.write_bytes(b"\n" * model.LONGEST_SHEET)
        unfinished = (1, b"", b"refused: sheet row 1: Unfinished\n")
        self.assertEqual(unfinished, self.answer("check", READ_MOST=1))

    def test_a_sheet_or_table_that_fails_past_its_limit_is_too_long(self):
        for command, path, room, expected in [
            ("check", self.sheet, model.LONGEST_SHEET + 1, b"refused: sheet: TooLong\n"),
            ("check", self.sheet, model.LONGEST_SHEET, b"refused: sheet: Read\n"),
            ("compare", self.table, model.LONGEST_TABLE + 1, b"refused: table: TooLong\n"),
            ("compare", self.table, model.LONGEST_TABLE, b"refused: table: Read\n"),
            ("differences", self.table, model.LONGEST_TABLE + 1, b"refused: table: TooLong\n"),
            ("differences", self.table, model.LONGEST_TABLE, b"refused: table: Read\n"),
            ("report --table", self.table, model.LONGEST_TABLE + 1, b"refused: table: TooLong\n"),
            ("report --table", self.table, model.LONGEST_TABLE, b"refused: table: Read\n"),
        ]:
            with self.subTest(expected):
                path.write_bytes(b" " * (model.LONGEST_SHEET + 2))
                answer = self.answer(command, READ_PATH=path, READ_ROOM=room)
                self.assertEqual((1, b"", expected), answer)


if __name__ == "__main__":
    unittest.main()
