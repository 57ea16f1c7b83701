"""Sheets checked against field files."""

from program import EXAMPLE, EXAMPLE_SHEET, ProgramTest, Run, answer_in_shell, answer_of
from worked import ACCEPTED, SHEET, STATION, edited, field_file, refused, widened

CHECK = ["check", "{file}", "{sheet}"]

OTHER_DIRECTION = edited(SHEET, (b"40000024", b"40000025"))

# All full turns of the last row, with directions and orientations that are least for them.
NINE_TURNS = edited(
    SHEET,
    (b"30000012,0", b"30000012,9"),
    (b"40000024", b"1480000024"),
    (b"set,1,,-20", b"set,1,,719999980"),
    (b"-80000020", b"-800000020"),
)

TURNED_ONCE = edited(
    SHEET,
    (b"20000004,0", b"20000004,1"),
    (b"30000012,0", b"30000012,1"),
    (b"-80000020", b"-400000020"),
)


def over(version, denominator, direction, first, second):
    """The sheet of the example over another denominator."""
    return edited(
        SHEET,
        (b"sheet,1,S1,4", f"sheet,{version},S1,{denominator}".encode()),
        (b"40000024", str(direction).encode()),
        (b"set,1,,-20", f"set,1,,{first}".encode()),
        (b"-80000020", str(second).encode()),
    )


WIDEST = 10**12, 10_000_006 * 10**12, -5 * 10**12, -20_000_005 * 10**12

# Each is a sheet for the example, and the line of its verdict.
SHEETS = [
    ("the means", SHEET, ACCEPTED),
    ("another direction", OTHER_DIRECTION, refused("kernel: TargetSum 2")),
    (
        "other orientations",
        over(1, 4, 40_000_024, -19, -80_000_021),
        refused("kernel: SetSum 1"),
    ),
    (
        "all turned by 4",
        edited(over(1, 4, 40_000_028, -16, -80_000_016), (b"A,0,", b"A,4,")),
        refused("kernel: Datum"),
    ),
    ("foolish turns", NINE_TURNS, ACCEPTED.replace(b"4/4", b"720000004/4")),
    ("a whole set turned once", TURNED_ONCE, ACCEPTED),
    (
        "another denominator",
        over(1, 8, 80_000_048, -40, -160_000_040),
        ACCEPTED.replace(b"4/4", b"8/8"),
    ),
    (
        "the largest numbers of version 1",
        over(1, 10**9, 10**18, -(10**18), -(10**18)),
        refused("kernel: TargetSum 1"),
    ),
    (
        "a direction above them",
        over(1, 10**9, 10**18 + 1, -(10**18), -(10**18)),
        refused("sheet row 3: Range"),
    ),
    ("version 2", edited(SHEET, (b"sheet,1", b"sheet,2")), ACCEPTED),
    (
        "the largest denominator",
        over(2, *WIDEST),
        ACCEPTED.replace(b"4/4", b"1000000000000/1000000000000"),
    ),
    ("it in version 1", over(1, *WIDEST), refused("sheet row 1: Range")),
    (
        "it alone in version 1",
        edited(SHEET, (b"S1,4", b"S1,%d" % 10**12)),
        refused("sheet row 1: Range"),
    ),
    ("a denominator above it", over(2, 10**12 + 1, 0, 0, 0), refused("sheet row 1: Range")),
    (
        "the largest numbers of version 2",
        over(2, 10**12, 10**21, -(10**21), -(10**21)),
        refused("kernel: TargetSum 1"),
    ),
    (
        "a direction above those",
        over(2, 10**12, 10**21 + 1, -(10**21), -(10**21)),
        refused("sheet row 3: Range"),
    ),
    ("version 3", edited(SHEET, (b"sheet,1", b"sheet,3")), refused("sheet row 1: Version")),
    ("no denominator", edited(SHEET, (b"S1,4", b"S1,0")), refused("sheet row 1: Range")),
    ("a column too full", edited(SHEET, (b"S1,4,", b"S1,4,0")), refused("sheet row 1: NotEmpty")),
    ("a quote", edited(SHEET, (b"S1", b'"S1')), refused("sheet row 1: Fields")),
    ("minus zero", edited(SHEET, (b"40000024", b"-0")), refused("sheet row 3: Number")),
    ("leading zeros", edited(SHEET, (b"40000024", b"007")), refused("sheet row 3: Number")),
    ("a plus", edited(SHEET, (b"40000024", b"+5")), refused("sheet row 3: Number")),
    (
        "a number of 5,001 digits",
        edited(SHEET, (b"40000024", b"1" + b"0" * 5_000)),
        refused("sheet row 3: Range"),
    ),
    (
        "a number of 128 bits",
        edited(SHEET, (b"40000024", b"%d" % 2**127)),
        refused("sheet row 3: Range"),
    ),
    ("no name", edited(SHEET, (b"target,,B", b"target,,")), refused("sheet row 3: Name")),
    (
        "17 bytes",
        edited(SHEET, (b"target,,B", b"target,," + b"B" * 17)),
        refused("sheet row 3: Name"),
    ),
    ("a byte 00", edited(SHEET, (b"target,,B", b"target,,\0")), refused("sheet row 3: Name")),
    ("six columns", edited(SHEET, (b"40000024,", b"40000024,,")), refused("sheet row 3: Fields")),
    (
        "targets exchanged",
        edited(SHEET, (b"target,,A,0,\n", b""), (b"24,\n", b"24,\ntarget,,A,0,\n")),
        refused("kernel: TargetRow 1"),
    ),
    (
        "sets exchanged",
        edited(SHEET, (b"set,1,,-20,\n", b""), (b"020,\n", b"020,\nset,1,,-20,\n")),
        refused("kernel: SetRow 1"),
    ),
    ("another p", edited(SHEET, (b"A,6,0", b"A,7,0")), refused("kernel: ObsRow 1")),
    ("no last row", edited(SHEET, (b"obs,2,B,30000012,0\n", b"")), refused("kernel: ObsRow 4")),
    ("another name", edited(SHEET, (b"S1", b"S2")), refused("no station")),
    ("no last line feed", SHEET[:-1], ACCEPTED),
    ("cut before the turns", SHEET[:-2], refused("sheet row 9: Number")),
    ("cut in a number", SHEET[:-5], refused("sheet row 9: Fields")),
    ("no bytes", b"", refused("sheet row 1: Unfinished")),
    ("lines ended by CR LF", edited(SHEET, (b"\n", b"\r\n")), ACCEPTED),
    ("a line without a byte", edited(SHEET, (b"obs,1,A", b"\nobs,1,A")), ACCEPTED),
    (
        "a line of a blank",
        edited(SHEET, (b"obs,1,A", b" \nobs,1,A")),
        refused("sheet row 6: Fields"),
    ),
    ("a byte order mark", b"\xef\xbb\xbf" + SHEET, ACCEPTED),
    ("two of them", b"\xef\xbb\xbf" * 2 + SHEET, refused("sheet row 1: Kind")),
    ("as many blanks as a sheet may have", b" " * 1_048_576, refused("sheet row 1: Fields")),
    ("one more", b" " * 1_048_577, refused("sheet: TooLong")),
    (
        "a byte order mark past the limit",
        b"\xef\xbb\xbf" + b" " * 1_048_574,
        refused("sheet: TooLong"),
    ),
]

OTHER_UNIT = edited(STATION, (b"0A 21.102+00000000", b"0A 21.104+00000000"))

OTHER_STATION = edited(STATION, (b"S1", b"S2"))

OTHER_MODE = edited(STATION, (b"0A 21.102+00000000", b"0A 21.112+00000000"))

MORE_WORDS = b" 31..00+00012345 51....+0000+000 87..10+00001500\r\n"

# Each is a field file and a sheet for it, and the line of the verdict.
FILES = [
    ("no bytes", b"", SHEET, refused("no station")),
    ("GSI-16", widened(STATION), SHEET, ACCEPTED),
    ("another unit", OTHER_UNIT, SHEET, refused("block 3: Hz Unit")),
    ("and no sheet", OTHER_UNIT, b"", refused("block 3: Hz Unit")),
    ("and no first word", OTHER_UNIT, edited(SHEET, (b"sheet", b"")), refused("block 3: Hz Unit")),
    ("another station", OTHER_STATION, SHEET, refused("no station")),
    (
        "and a sheet with a fault",
        OTHER_STATION,
        edited(SHEET, (b"S1,4", b"S1,0")),
        refused("sheet row 1: Range"),
    ),
    ("another input mode", OTHER_MODE, SHEET, refused("block 3: Hz InputMode")),
    ("a block outside", b"110001+0000000A 21.104+00000000\n" + STATION, SHEET, ACCEPTED),
    (
        "what is not read",
        edited(
            STATION + b"110013+00000099 21.102+11111111 22.102+10000000\n",
            (b"110004", b"410099+?......1\r\n110004"),
            (b"\r\n", MORE_WORDS),
        ),
        SHEET,
        ACCEPTED,
    ),
    (
        "a target in one set alone",
        field_file(
            {
                1: [
                    ("A", 0, 20_000_006),
                    ("B", 5_000_000, 25_000_010),
                    ("C", 10_000_001, 30_000_001),
                ],
                2: [("A", 10_000_000, 30_000_004), ("B", 15_000_004, 35_000_008)],
            }
        ),
        edited(
            SHEET,
            (b"40000024,\n", b"40000024,\ntarget,,C,79999988,\n"),
            (b"obs,2,A", b"obs,1,C,20000002,0\nobs,2,A"),
        ),
        b"accepted S1: 2 sets, 3 targets, 5 directions, greatest residual 4/4\n",
    ),
    (
        "sets without a common target",
        field_file(
            {
                1: [("A", 0, 20_000_000), ("B", 50, 20_000_050)],
                2: [("C", 0, 20_000_000), ("D", 50, 20_000_050)],
            }
        ),
        b"sheet,1,S1,1,\ntarget,,A,0,\ntarget,,B,100,\ntarget,,C,0,\ntarget,,D,100,\n"
        b"set,1,,0,\nset,2,,0,\n"
        b"obs,1,A,0,0\nobs,1,B,100,0\nobs,2,C,0,0\nobs,2,D,100,0\n",
        refused("kernel: NotConnected"),
    ),
    (
        "no better choice over this denominator",
        field_file(
            {
                1: [("A", 0, 20_000_000), ("B", 0, 20_000_000)],
                2: [("A", 0, 20_000_000), ("B", 0, 20_000_001)],
            }
        ),
        b"sheet,1,S1,1,\ntarget,,A,0,\ntarget,,B,0,\nset,1,,0,\nset,2,,0,\n"
        b"obs,1,A,0,0\nobs,1,B,0,0\nobs,2,A,0,0\nobs,2,B,1,0\n",
        refused("kernel: TargetSum 2"),
    ),
]

# Three sets that share a target with the next, and come full circle.
ROUND = field_file(
    {
        1: [("A", 0, 20_000_000), ("B", 50, 20_000_050)],
        2: [("B", 0, 20_000_000), ("C", 50, 20_000_050)],
        3: [("C", 0, 20_000_000), ("A", 39_999_903, 19_999_903)],
    }
)

ROUND_SHEET = b"""\
sheet,1,S1,1,
target,,A,0,
target,,B,98,
target,,C,196,
set,1,,-1,
set,2,,97,
set,3,,195,
obs,1,A,0,0
obs,1,B,100,0
obs,2,B,0,0
obs,2,C,100,0
obs,3,A,79999806,-1
obs,3,C,0,0
"""

ROUND_ACCEPTED = b"accepted S1: 3 sets, 3 targets, 6 directions, greatest residual 1/1\n"

# Residuals 0, 0, 1, -1, -1, 1.
LAST_FOUR_OFF = field_file(
    {
        1: [("A", 0, 20_000_000), ("B", 50, 20_000_050)],
        2: [("A", 4, 20_000_005), ("B", 55, 20_000_056)],
        3: [("A", 10, 20_000_011), ("B", 59, 20_000_060)],
    }
)

LAST_FOUR_OFF_SHEET = b"""\
sheet,1,S1,1,
target,,A,0,
target,,B,100,
set,1,,0,
set,2,,-10,
set,3,,-20,
obs,1,A,0,0
obs,1,B,100,0
obs,2,A,9,0
obs,2,B,111,0
obs,3,A,21,0
obs,3,B,119,0
"""

# Each is a field file, a sheet, a residual limit or none, and the line of the verdict.
LIMITED = [
    (STATION, SHEET, "1", ACCEPTED),
    (STATION, SHEET, "0", refused("kernel: Residual 1")),
    (STATION, SHEET, "2000", ACCEPTED),
    (STATION, OTHER_DIRECTION, "0", refused("kernel: TargetSum 2")),
    (STATION, NINE_TURNS, "100", refused("kernel: Residual 1")),
    (ROUND, ROUND_SHEET, None, ROUND_ACCEPTED),
    (ROUND, ROUND_SHEET, "1", ROUND_ACCEPTED),
    (ROUND, ROUND_SHEET, "0", refused("kernel: Residual 1")),
    (LAST_FOUR_OFF, LAST_FOUR_OFF_SHEET, "1", ROUND_ACCEPTED.replace(b"3 targets", b"2 targets")),
    (LAST_FOUR_OFF, LAST_FOUR_OFF_SHEET, "0", refused("kernel: Residual 3")),
]


def judged(name, file, sheet, line, *options):
    """A run of the check, which prints an acceptance or refuses."""
    is_accepted = line.startswith(b"accepted")
    stdout, stderr = (line, b"") if is_accepted else (b"", line)
    return Run(name, [*CHECK, *options], b"", file, sheet, stdout, stderr, 0 if is_accepted else 1)


class CheckTest(ProgramTest):
    def test_a_sheet_is_accepted_or_its_first_fault_is_named(self):
        self.check([judged(name, STATION, sheet, line) for name, sheet, line in SHEETS])

    def test_the_field_file_is_judged_before_its_sheet(self):
        self.check([judged(*row) for row in FILES])

    def test_a_residual_limit_is_kept(self):
        for file, sheet, limit, line in LIMITED:
            options = [] if limit is None else ["--residual", limit]
            self.check([judged(f"residual limit {limit}", file, sheet, line, *options)])

    def test_every_cut_sheet_gets_an_answer(self):
        for length in range(len(SHEET)):
            with self.subTest(length=length):
                path = self.folder / "sheet.csv"
                path.write_bytes(SHEET[:length])
                status, stdout, stderr = answer_of(["check", EXAMPLE, path])
                is_whole = length == len(SHEET) - 1
                self.assertEqual(0 if is_whole else 1, status)
                self.assertEqual(ACCEPTED if is_whole else b"", stdout)
                self.assertRegex(stderr, rb"^(refused: .+\n)?$")

    def test_both_files_may_be_pipes(self):
        files = f"<(cat '{EXAMPLE}') <(cat '{EXAMPLE_SHEET}')"
        self.assertEqual((0, ACCEPTED, b""), answer_in_shell(f'"$@" {files}', "check"))
        for gsi, sheet, stdin in [
            ("/dev/stdin", EXAMPLE_SHEET, STATION),
            (EXAMPLE, "/dev/stdin", SHEET),
        ]:
            with self.subTest(gsi=gsi):
                self.assertEqual((0, ACCEPTED, b""), answer_of(["check", gsi, sheet], stdin))

    def test_a_sheet_that_never_ends_is_refused(self):
        answer = answer_in_shell('yes | "$@"', "check", EXAMPLE, "/dev/stdin")
        self.assertEqual((1, b"", refused("sheet: TooLong")), answer)
