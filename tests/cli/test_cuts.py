"""Cut and changed input: each first part of the example, of its sheet and of its tables in gon and in
degrees; each byte of them replaced by each of twelve."""

import unittest

from against_model import FIELD, SHEET, TABLE, AgainstModel, Case, sample
from program import answer_of
from worked import JOB

# A blank, a tab, both line ends, and bytes that a field file or a sheet has elsewhere, or nowhere.
BYTES = [b" ", b"\t", b"\r", b"\n", b"*", b"0", b"9", b"+", b"-", b'"', b",", b"\x80"]

FIVE_LINES = b"".join(FIELD.splitlines(keepends=True)[:5])
SIXTH_LINE = FIELD.splitlines()[5]

# The table in degrees, in both forms with minutes and seconds.
DEGREES = "A,0-00-00.0\nB,45°00'00.1\"\n".encode()

# How many bytes of the sixth line are there, and what `list` answers.
CUT_SIXTH_LINE = [
    (range(0, 1), b"refused: block 6: OneFace\n"),
    (range(1, 15), b"refused: block 6: Word 1\n"),
    (range(15, 17), b"refused: block 7: OneFace\n"),
    (range(17, 31), b"refused: block 6: Word 2\n"),
    (range(31, 33), b"refused: block 6: NoZenith\n"),
    (range(33, 47), b"refused: block 6: Word 3\n"),
]

ONE_SET = (
    b"station S1: 1 sets, 2 targets, 2 directions\n"
    b"set 1, target A: p 6, 2c 6, 2i -2\n"
    b"set 1, target B: p 10000010, 2c 10, 2i 0\n"
)

ACCEPTED = b"accepted S1: 2 sets, 2 targets, 4 directions, greatest residual 4/4\n"

# The last row of the sheet up to some byte, and what `check` answers.
CUT_SHEET = [
    (SHEET, (0, ACCEPTED, b"")),
    (SHEET[:-1], (0, ACCEPTED, b"")),
    (SHEET[:-2], (1, b"", b"refused: sheet row 9: Number\n")),
    (SHEET[:-4], (1, b"", b"refused: sheet row 9: Fields\n")),
    (SHEET[: SHEET.rindex(b"obs")], (1, b"", b"refused: kernel: ObsRow 4\n")),
]


def cuts(command, bytes_before, whole, **others):
    """A case for each number of bytes that are left of a whole."""
    for left in range(len(whole) + 1):
        yield Case(f"{command}, {left} bytes", command, bytes_before + whole[:left], **others)


def replaced(whole):
    """The whole with each byte replaced by each other byte of the table, and what was replaced."""
    for place in range(len(whole)):
        for byte in BYTES:
            if whole[place : place + 1] != byte:
                yield f"byte {place} is {byte}", whole[:place] + byte + whole[place + 1 :]


class CutsTest(AgainstModel):
    def test_a_line_cut_anywhere_is_named(self):
        path = self.folder / "cut.gsi"
        for places, refusal in CUT_SIXTH_LINE:
            for left in places:
                with self.subTest(left=left):
                    path.write_bytes(FIVE_LINES + SIXTH_LINE[:left])
                    self.assertEqual((1, b"", refusal), answer_of(["list", path]))
        path.write_bytes(FIVE_LINES + SIXTH_LINE)
        self.assertEqual((0, ONE_SET, b""), answer_of(["list", path]))

    def test_a_sheet_cut_in_its_last_row_is_named(self):
        field, sheet = self.folder / "field.gsi", self.folder / "sheet.csv"
        field.write_bytes(FIELD)
        for text, expected in CUT_SHEET:
            with self.subTest(text[-20:]):
                sheet.write_bytes(text)
                self.assertEqual(expected, answer_of(["check", field, sheet]))

    def test_every_first_part_of_the_example(self):
        steps = [("words", 3), ("list", 3), ("means", 3), ("check", 3), ("directions", 5)]
        for command, step in [*steps, ("report", 5), ("report --csv", 5), ("list --csv", 5)]:
            self.compare(sample(cuts(command, b"", FIELD, sheet=SHEET), step))
        for command in ["compare", "differences", "report --table"]:
            self.compare(sample(cuts(command, b"", FIELD, sheet=TABLE), 5))

    def test_every_first_part_of_a_job(self):
        self.compare(sample(cuts("mark", b"", JOB), 3))

    def test_every_byte_of_a_job_replaced(self):
        jobs = sample(replaced(JOB), 7)
        self.compare(Case(name, "mark", job) for name, job in jobs)

    def test_every_first_part_of_the_sheet(self):
        lengths = range(len(SHEET) + 1)
        self.compare(Case(f"{left} bytes", "check", FIELD, SHEET[:left]) for left in lengths)

    def test_every_first_part_of_the_table(self):
        lengths = range(len(TABLE) + 1)
        for command in ["compare", "differences", "report --table"]:
            self.compare(Case(f"{left} bytes", command, FIELD, TABLE[:left]) for left in lengths)

    def test_every_byte_of_the_table_replaced(self):
        tables = sample(replaced(TABLE), 3)
        for command in ["compare", "differences", "report --table"]:
            self.compare(Case(name, command, FIELD, table) for name, table in tables)

    def test_a_table_in_degrees_cut_and_replaced(self):
        texts = [(f"{left} bytes", DEGREES[:left]) for left in range(len(DEGREES) + 1)]
        texts += sample(replaced(DEGREES), 3)
        for command in ["compare", "differences", "report --table"]:
            self.compare(Case(name, command, FIELD, table, degrees=True) for name, table in texts)

    def test_every_byte_of_the_example_replaced(self):
        steps = [("list", 5), ("check", 23), ("words", 29), ("means", 31), ("directions", 37)]
        for command, step in [*steps, ("report", 43), ("report --csv", 41), ("list --csv", 47)]:
            fields = sample(replaced(FIELD), step)
            self.compare(Case(f"{command}, {name}", command, *pair) for name, *pair in fields)
        for command, step in [("compare", 47), ("differences", 43), ("report --table", 41)]:
            fields = sample(replaced(FIELD), step)
            self.compare(
                Case(f"{command}, {name}", command, field, TABLE) for name, field in fields
            )

    def test_every_byte_of_the_sheet_replaced(self):
        sheets = sample(replaced(SHEET), 5)
        self.compare(Case(name, "check", FIELD, sheet) for name, sheet in sheets)


if __name__ == "__main__":
    unittest.main()
