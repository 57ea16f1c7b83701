"""examples/check_folder.py over a thousand files, some refused or missing: names, capitals or stations
that could hide that a sheet is missing; tables in gon and in degrees, and of more columns; jobs
without codes; what it may write over and remove; names that would control a terminal; pipes."""

import os
import shutil
import subprocess
import sys
import unittest

from pages import tools
from program import ROOT, ProgramTest
from test_compare import told
from worked import (
    ACCEPTED,
    DIFFERENCES,
    JOB,
    LIST_ROWS,
    REPORT_ROWS,
    RESIDUALS,
    SHEET,
    STATION,
    edited,
    field_file,
    widened,
)

SCRIPT = ROOT / "examples" / "check_folder.py"
FILES = 1_000

# More than the script takes, in seconds.
TIME = 300

SUMMARY = (
    "{} of {} field files done; of the sheets {} accepted, {} refused, {} not checked"
)

# What follows it where there are tables.
TABLES = "; of the tables {} agreed, {} refused, {} not compared"

# What is said of a station that is not done.
MISSING = "no accepted sheet or agreeing table of station {}"

# Of each ten files, by their last digit, the ones that have something wrong.
WRONG_SHEET, WRONG_FIELD, NO_FIELD, NO_SHEET = 6, 7, 8, 9
RIGHT = 6
EACH = FILES // 10

ACCEPTED_S1 = ACCEPTED.decode().rstrip("\n")

# A field file of three stations, and the sheet of each.
THREE = b"".join(edited(STATION, (b"00S1", b"00S%d" % n)) for n in (1, 2, 3))
SHEETS = {n: edited(SHEET, (b",S1,", b",S%d," % n)) for n in (1, 2, 3)}

WRONG = edited(SHEET, (b"set,1,,-20,", b"set,1,,-21,"))

# Directions of the example: as they are, rounded, and 0.02 mgon off.
TABLE = b"A,0.000000\nB,50.000030\n"
ROUNDED = b"A,0.0000\nB,50.0000\n"
OFF = b"A,0\nB,50.00005\n"
# (its residuals are 1 half unit in size)
AGREES = "agrees S1: 2 sets, 2 targets, within 0.{:03} mgon, limit 0.{:03} mgon, greatest residual 0.005 mgon"
APART = "refused: compare: Apart 0.{:03} mgon, limit 0.{:03} mgon"

# The same directions in degrees, in each form; the last two are right to a tenth of a second.
IN_DEGREES = [
    b"A,0.000000\nB,45.000027\n",
    b"A,0-00-00.0\nB,45-00-00.1\n",
    "A,0°00'00.0\"\nB,45°00'00.1\"\n".encode(),
]

# Tables of the example that are told from sheets and read by options or by their columns: each with
# its options, how far it is apart with its limit, and the numbers of its note.
OF_MORE_FORMS = [
    (b"A,0:00:00.0\nB,45:00:00.1\n", ["--degrees"], 1, 21, None),
    ("A;0° 00′ 00.0″\nB;45° 00′ 00.1″\n".encode(), ["--degrees"], 1, 21, None),
    (b"A,0.00000\nB,45.00001\n", ["--dmmss"], 1, 21, None),
    (b"A 0.000000 gon\nB 50.000030 gon\n", [], 0, 10, (1, 2, 0, 0, 0, 2)),
    (b"| A | 0.000000 |\n| B | 50.000030 |\n", [], 0, 10, (2, 4, 0, 0, 0, 0)),
    (b'"","t","d"\n"1","A",0\n"2","B",50.00003\n', [], 0, 10, (2, 3, 1, 0, 0, 0)),
    (b"A;7;0.00000\nB;8;50.00003\n", ["--columns=1,3"], 0, 10, (1, 3, 0, 0, 0, 0)),
]

# What the page saves of face differences.
FACES = b"set,target,2c mgon,2i mgon\n1,A,0.06,-0.02\n"
ALL_DIFFERENCES = b"station,target,stated,least squares,difference,from the median\nS1,A,0.000000,0.000000,0.000,0.000\n"

# The rows of the example that station_check prints or its page saves, and where they are from.
ROWS = [
    ("'station_check list --csv' printed", "job.list.csv", LIST_ROWS),
    ("the library handed out", "job.residuals.csv", RESIDUALS),
    ("the page saved", "job.faces.csv", FACES),
    ("the page saved", "job.comma_faces.csv", FACES.replace(b",", b";").replace(b".", b",")),
    ("'station_check differences' printed", "job.S1.differences.CSV", DIFFERENCES),
    ("'station_check differences --all' printed", "job.differences.csv", ALL_DIFFERENCES),
    ("'station_check report --csv' printed", "job.report.csv", REPORT_ROWS),
]


def station(number):
    """The field file and the sheet of the example with its target B elsewhere: each number has its
    own place, at 1000 units times the number."""
    at = 1_000 * number
    sets = {1: [("A", 0, 20_000_006), ("B", at, 20_000_010 + at)]}
    sets[2] = [("A", 10_000_000, 30_000_004), ("B", 10_000_004 + at, 30_000_008 + at)]
    direction, first, second = 8 * at + 24, 2 * at + 10, 2 * at + 20_000_012
    moved = [(b"40000024", direction), (b"10000010", first), (b"30000012", second)]
    return field_file(sets), edited(SHEET, *((old, b"%d" % new) for old, new in moved))


class FolderTest(ProgramTest):
    def run_script(self, *args, folder=None, path=None):
        """The exit status of the script, and the lines that it prints."""
        if not (self.folder / "bin").exists():
            tools(self.folder / "bin")
        command = [sys.executable, SCRIPT, self.folder / "files" if folder is None else folder]
        environment = {**os.environ, "PATH": str(path or self.folder / "bin"), "LC_ALL": "C"}
        run = {"env": environment, "capture_output": True, "timeout": TIME}
        done = subprocess.run([*command, *args], **run)
        return done.returncode, done.stdout.decode().splitlines(), done.stderr.decode()

    def write(self, number):
        """One of the files and its sheet; the names have blanks, or the name of the station."""
        field, sheet = station(number)
        what = number % 10
        if what == WRONG_SHEET:
            sheet = edited(sheet, (b"set,1,,-20,", b"set,1,,-21,"))
        if what == WRONG_FIELD:
            field = edited(field, (b"0A 21.102+00000000", b"0A 21.104+00000000"))
        folder, name = self.folder / "files", f"job {number:04}"
        if what != NO_FIELD:
            (folder / f"{name}.gsi").write_bytes(field)
        if what != NO_SHEET:
            (folder / f"{name}{'.S1' if number % 3 else ''}.csv").write_bytes(sheet)

    def test_a_thousand_files(self):
        (self.folder / "files").mkdir()
        for number in range(FILES):
            self.write(number)
        status, lines, said = self.run_script("--residual=2000")
        self.assertEqual((1, ""), (status, said))
        counts = SUMMARY.format(RIGHT * EACH, FILES - EACH, RIGHT * EACH, 2 * EACH, EACH)
        self.assertEqual(counts, lines[-1])
        refusals = {
            WRONG_SHEET: ["refused: kernel: TargetSum 1", MISSING.format("S1")],
            WRONG_FIELD: ["refused: block 3: Hz Unit"] * 2,
            NO_FIELD: ["no field file of this name; capitals count"],
            NO_SHEET: [MISSING.format("S1")],
        }
        wanted = []
        for number in range(FILES):
            name, sheet = f"job {number:04}", f"job {number:04}{'.S1' if number % 3 else ''}"
            answers = refusals.get(number % 10, [ACCEPTED_S1])
            of_sheet = [] if number % 10 == NO_SHEET else [sheet]
            wanted += [f"{name}: {said}" for name, said in zip([*of_sheet, name], answers)]
            kept = self.folder / "files" / f"{sheet}.answer"
            self.assertEqual(number % 10 not in (NO_FIELD, NO_SHEET), kept.exists(), sheet)
            if kept.exists():
                self.assertEqual(f"{answers[0]}\n", kept.read_text())
        self.assertEqual(sorted(wanted), sorted(lines[:-1]))

    def answers(self, files, *args):
        """The status and the lines for a folder of these files."""
        folder = self.folder / "files"
        folder.mkdir(exist_ok=True)
        for path in folder.iterdir():
            path.unlink()
        for name, content in files.items():
            (folder / name).write_bytes(content)
        status, lines, said = self.run_script(*args)
        self.assertEqual("", said)
        return status, lines

    def test_a_sheet_belongs_to_the_field_file_of_the_longest_name(self):
        moved, its_sheet = station(7)
        both = {"2026.gsi": moved, "2026.csv": its_sheet, "2026.11.gsi": STATION}
        right = {"2026.11.csv": SHEET}
        summary = SUMMARY.format(2, 2, 2, 0, 0)
        lines = [f"2026: {ACCEPTED_S1}", f"2026.11: {ACCEPTED_S1}", summary]
        self.assertEqual((0, sorted(lines)), self.sorted_answers({**both, **right}))
        status, lines = self.answers({**both, "2026.11.csv": its_sheet})
        self.assertEqual((1, SUMMARY.format(1, 2, 1, 1, 0)), (status, lines[-1]))
        self.assertIn("2026.11: refused: kernel: ObsRow 2", lines)
        self.assertIn(f"2026.11: {MISSING.format('S1')}", lines)

    def sorted_answers(self, files):
        status, lines = self.answers(files)
        return status, sorted(lines)

    def test_a_field_file_in_capitals_is_seen(self):
        missing = f"JOB2: {MISSING.format('S1')}"
        files = {"JOB2.GSI": STATION}
        self.assertEqual((1, [missing, SUMMARY.format(0, 1, 0, 0, 0)]), self.answers(files))
        for sheet in ["JOB2.CSV", "JOB2.csv", "JOB2.S1.Csv"]:
            status, lines = self.answers({**files, sheet: SHEET})
            self.assertEqual((0, SUMMARY.format(1, 1, 1, 0, 0)), (status, lines[-1]))
            kept = self.folder / "files" / f"{sheet[:-4]}.answer"
            self.assertEqual(ACCEPTED, kept.read_bytes())

    def test_each_station_of_a_field_file_needs_a_sheet(self):
        files = {"three.gsi": THREE, "three.S1.csv": SHEETS[1]}
        missing = [f"three: {MISSING.format(f'S{n}')}" for n in (2, 3)]
        accepted = f"three.S1: {ACCEPTED_S1}"
        summary = SUMMARY.format(0, 1, 1, 0, 0)
        self.assertEqual((1, [accepted, *missing, summary]), self.answers(files))
        for n in (2, 3):
            files[f"three.S{n}.csv"] = SHEETS[n]
        status, lines = self.answers(files)
        self.assertEqual((0, SUMMARY.format(1, 1, 3, 0, 0)), (status, lines[-1]))

    def test_one_sheet_under_three_names_is_the_sheet_of_one_station(self):
        files = {"three.gsi": THREE, **{f"three.S{n}.csv": SHEETS[1] for n in (1, 2, 3)}}
        status, lines = self.answers(files)
        self.assertEqual((1, SUMMARY.format(0, 1, 3, 0, 0)), (status, lines[-1]))
        missing = [f"three: {MISSING.format(f'S{n}')}" for n in (2, 3)]
        self.assertEqual(missing, lines[3:5])

    def test_a_field_file_alone_is_not_done(self):
        files = {"2026.11.20.gsi": STATION}
        missing = f"2026.11.20: {MISSING.format('S1')}"
        self.assertEqual((1, [missing, SUMMARY.format(0, 1, 0, 0, 0)]), self.answers(files))

    def test_a_table_that_agrees_does_for_a_sheet(self):
        for name in ["job.directions", "job.S1.directions", "job.Directions", "job", "job.S1"]:
            for end in (".csv", ".CSV"):
                with self.subTest(name + end):
                    files = {"job.gsi": STATION, name + end: TABLE}
                    lines = [f"{name}: {AGREES.format(0, 10)}"]
                    lines.append(SUMMARY.format(1, 1, 0, 0, 0) + TABLES.format(1, 0, 0))
                    self.assertEqual((0, lines), self.answers(files))
                    kept = self.folder / "files" / f"{name}.answer"
                    self.assertEqual(f"{AGREES.format(0, 10)}\n", kept.read_text())

    def test_a_table_that_is_refused_leaves_its_station_to_be_done(self):
        files = {"job.gsi": STATION, "job.directions.csv": OFF}
        lines = [f"job.directions: {APART.format(10, 9)}", f"job: {MISSING.format('S1')}"]
        lines.append(SUMMARY.format(0, 1, 0, 0, 0) + TABLES.format(0, 1, 0))
        self.assertEqual((1, lines), self.answers(files, "--within=9"))
        # An accepted sheet makes it done, and the refusal still shows.
        status, lines = self.answers({**files, "job.csv": SHEET}, "--within=9")
        self.assertEqual(SUMMARY.format(1, 1, 1, 0, 0) + TABLES.format(0, 1, 0), lines[-1])
        self.assertEqual(1, status)

    def test_options_of_compare_are_those_of_tables(self):
        files = {"job.gsi": STATION, "job.csv": SHEET, "job.directions.csv": ROUNDED}
        for within, answer in [(14, APART.format(15, 14)), (15, AGREES.format(15, 15))]:
            status, lines = self.answers(files, f"--within={within}", "--residual=2000")
            self.assertEqual((within == 14, f"job.directions: {answer}"), (status == 1, lines[1]))
        status, lines = self.answers(files, "--two-c=9")
        self.assertEqual(["refused: block 5: TwoC"] * 3, [line.split(": ", 1)[1] for line in lines[:3]])

    def test_the_limit_of_residuals_holds_tables_too(self):
        files = {"job.gsi": STATION, "job.directions.csv": TABLE}
        for residual in ("1", "0.005mgon"):
            status, lines = self.answers(files, f"--residual={residual}")
            self.assertEqual((0, f"job.directions: {AGREES.format(0, 10)}"), (status, lines[0]))
        above = ["job.directions: refused: adjust: Residual 1", f"job: {MISSING.format('S1')}"]
        above.append(SUMMARY.format(0, 1, 0, 0, 0) + TABLES.format(0, 1, 0))
        self.assertEqual((1, above), self.answers(files, "--residual=0"))

    def test_sheets_and_tables_of_more_stations_go_together(self):
        files = {"three.gsi": THREE, "three.S1.csv": SHEETS[1], "three.S2.directions.csv": TABLE}
        files["three.S3.csv"] = TABLE
        status, lines = self.answers(files)
        summary = SUMMARY.format(1, 1, 1, 0, 0) + TABLES.format(2, 0, 0)
        self.assertEqual((0, summary), (status, lines[-1]))
        agrees = AGREES.format(0, 10).replace("S1", "S2")
        self.assertIn(f"three.S2.directions: {agrees}", lines)

    def test_a_table_that_belongs_to_nothing_is_no_mistake(self):
        files = {"job.gsi": STATION, "job.csv": SHEET, "three.gsi": THREE}
        files |= {f"three.S{n}.csv": SHEETS[n] for n in (1, 2, 3)}
        for name, said in [
            ("other.directions", "a table of directions with no field file of this name; capitals count"),
            ("job_directions", "a table of directions with no field file of this name; capitals count"),
            ("three.directions", "of which station? name it three.STATION.directions.csv"),
        ]:
            with self.subTest(name):
                status, lines = self.answers({**files, f"{name}.csv": TABLE})
                summary = SUMMARY.format(2, 2, 4, 0, 0) + TABLES.format(0, 0, 1)
                self.assertEqual((0, summary), (status, lines[-1]))
                self.assertIn(f"{name}: {said}", lines)
                self.assertFalse((self.folder / "files" / f"{name}.answer").exists())

    def test_rows_that_station_check_printed_are_no_mistake(self):
        """As they are, as a spreadsheet saves them, and their titles alone."""
        files, said = {"job.gsi": STATION, "job.csv": SHEET}, f"job: {ACCEPTED_S1}"
        skipped = [f"{name[:-4]}: rows that {origin}" for origin, name, _ in ROWS]
        lines = [said, *skipped, SUMMARY.format(1, 1, 1, 0, 0)]
        for form in [
            lambda rows: rows,
            lambda rows: b"\xef\xbb\xbf" + rows.replace(b"\n", b"\r\n"),
            lambda rows: rows.partition(b"\n")[0],
        ]:
            saved = {name: form(rows) for _, name, rows in ROWS}
            self.assertEqual((0, sorted(lines)), self.sorted_answers({**files, **saved}))
            kept = [path.name for path in (self.folder / "files").glob("*.answer")]
            self.assertEqual(["job.answer"], kept)

    def test_rows_that_station_check_printed_do_for_no_sheet(self):
        missing = f"job: {MISSING.format('S1')}"
        for origin, _, rows in ROWS:
            with self.subTest(origin):
                skipped = f"job: rows that {origin}"
                lines = [skipped, missing, SUMMARY.format(0, 1, 0, 0, 0)]
                self.assertEqual((1, lines), self.answers({"job.gsi": STATION, "job.csv": rows}))
        # The sheet beside them is checked, and its refusal shows.
        for sheet, status in [(SHEET, 0), (WRONG, 1)]:
            both = {"job.gsi": STATION, "job.CSV": REPORT_ROWS, "job.csv": sheet}
            self.assertEqual(status, self.answers(both)[0])

    def test_titles_like_those_of_rows_are_titles_of_a_table(self):
        for titles in [b"target,stated", b"target,stated,least squares", b"Station,Set,Target"]:
            with self.subTest(titles):
                table = titles + b"\n" + TABLE
                status, lines = self.answers({"job.gsi": STATION, "job.csv": table})
                self.assertEqual((0, f"job: {AGREES.format(0, 10)}"), (status, lines[0]))

    def test_tables_in_degrees(self):
        for name, table, within, limit in zip(
            ["job.directions.csv", "job.csv", "job.S1.csv"], IN_DEGREES, [0, 1, 1], [10, 21, 21]
        ):
            with self.subTest(table=table):
                files = {"job.gsi": STATION, name: table}
                said = f"{name[:-4]}: {AGREES.format(within, limit)}"
                lines = [said, SUMMARY.format(1, 1, 0, 0, 0) + TABLES.format(1, 0, 0)]
                self.assertEqual((0, lines), self.answers(files, "--degrees"))
                status, lines = self.answers(files)
                self.assertEqual(1, status)
                self.assertTrue(lines[-1].endswith(TABLES.format(0, 1, 0)))
        # Sheets and the limits are what they were.
        files = {"job.gsi": STATION, "job.csv": SHEET, "job.directions.csv": IN_DEGREES[1]}
        status, lines = self.answers(files, "--degrees", "--within=0", "--residual=1")
        said = [f"job: {ACCEPTED_S1}", f"job.directions: {APART.format(1, 0)}"]
        self.assertEqual((1, said), (status, lines[:2]))

    def test_tables_of_more_forms_and_columns(self):
        """What is told of columns is printed, and an answer that begins with it is one of before."""
        for table, options, within, limit, counts in OF_MORE_FORMS:
            with self.subTest(table=table):
                files = {"job.gsi": STATION, "job.csv": table}
                lines = [f"job: {AGREES.format(within, limit)}"]
                lines += [f"job: {told(counts).decode().rstrip()}"] if counts else []
                lines.append(SUMMARY.format(1, 1, 0, 0, 0) + TABLES.format(1, 0, 0))
                self.assertEqual((0, lines), self.answers(files, *options))
        numbered = b"1;A;0\n2;B;50.00005\n"
        lines = [f"job: {APART.format(10, 5)}", f"job: {told((2, 3, 0, 0, 0, 0)).decode().rstrip()}"]
        lines += [f"job: {MISSING.format('S1')}", SUMMARY.format(0, 1, 0, 0, 0) + TABLES.format(0, 1, 0)]
        files = {"job.gsi": STATION, "job.csv": numbered}
        for _ in range(2):
            self.assertEqual((1, lines), self.answers(files, "--within=5"))
            files["job.answer"] = (self.folder / "files" / "job.answer").read_bytes()

    def test_a_job_without_codes_is_not_done_and_the_note_of_list_is_printed(self):
        note = "note: nothing was checked: 8 readings stand in no set; "
        note += "station_check mark puts codes into a copy"
        lines = [f"job: {note}", SUMMARY.format(0, 1, 0, 0, 0)]
        self.assertEqual((1, lines), self.answers({"job.gsi": JOB}))
        lines = [f"job.directions: {note}", f"job: {note}"]
        status, said = self.answers({"job.gsi": JOB, "job.directions.csv": TABLE})
        self.assertEqual((1, lines), (status, said[:2]))

    def test_help_says_of_tables_when_the_status_is_0(self):
        help_text = " ".join(self.run_script("--help", folder=self.folder)[1])
        _, _, statuses = " ".join(help_text.split()).partition("Exit status: ")
        for said in ["0 there are field files, each is done,", "and each table that was compared"]:
            self.assertIn(said, statuses)

    def test_a_table_of_a_station_that_is_not_there_is_refused(self):
        files = {"job.gsi": STATION, "job.S2.directions.csv": TABLE}
        status, lines = self.answers(files)
        self.assertEqual((1, "job.S2.directions: refused: no station"), (status, lines[0]))

    def test_a_sheet_stays_a_sheet_whatever_is_wrong_with_it(self):
        rows = SHEET.splitlines(keepends=True)
        for sheet in [b"".join(rows[1:]), b"".join(rows[:1]), SHEET.replace(b"sheet,", b"Sheet,"), b"", b"x"]:
            with self.subTest(sheet):
                status, lines = self.answers({"job.gsi": STATION, "job.csv": sheet})
                self.assertEqual((1, SUMMARY.format(0, 1, 0, 1, 0)), (status, lines[-1]))
                self.assertIn("refused: sheet", lines[0])

    def test_a_field_file_without_stations_is_not_done(self):
        for content, said in [(b"", "no station"), (b"x", "refused: block 1: Word 1")]:
            lines = [f"job: {said}", SUMMARY.format(0, 1, 0, 0, 0)]
            self.assertEqual((1, lines), self.answers({"job.gsi": content}))

    def test_names_that_differ_in_capitals_of_their_extensions_are_said(self):
        said = "a: one name for {}"
        both = {"a.GSI": STATION, "a.gsi": STATION, "a.csv": SHEET}
        status, lines = self.answers(both)
        self.assertEqual((1, said.format("a.GSI and a.gsi")), (status, lines[0]))
        both = {"a.gsi": STATION, "a.CSV": WRONG, "a.csv": SHEET}
        status, lines = self.answers(both)
        self.assertEqual((1, said.format("a.CSV and a.csv")), (status, lines[0]))
        self.assertEqual(SUMMARY.format(0, 1, 0, 0, 1), lines[-1])

    def test_a_sheet_without_a_field_file_is_not_done(self):
        files = {"job.gsi": STATION, "job.csv": SHEET}
        for name in ["jo.csv", "jobs.csv", "job .csv", "S1.csv", "JOB.csv"]:
            status, lines = self.answers({**files, name: SHEET})
            self.assertEqual((1, SUMMARY.format(1, 1, 1, 0, 1)), (status, lines[-1]))
            self.assertIn(f"{name[:-4]}: no field file of this name; capitals count", lines)

    def test_answers_of_before_and_other_files_play_no_part(self):
        files = {"job.gsi": STATION, "job.csv": SHEET, "-n.gsi": STATION, "-n.csv": SHEET}
        others = {".job.gsi": STATION, "old.answer": ACCEPTED, "notes.txt": b""}
        status, lines = self.answers({**files, **others})
        self.assertEqual((0, SUMMARY.format(2, 2, 2, 0, 0)), (status, lines[-1]))
        self.assertIn("old.answer: an answer of before; no sheet or table has its name", lines)

    def test_nothing_is_removed_or_written_over_but_answers(self):
        """Files that are called as answers are, and hold none, stay as they are; so do links."""
        files = {"job.gsi": STATION, "job.csv": SHEET, "other.gsi": STATION, "other.csv": SHEET}
        mine = {"client.answer": b"our answer to the client\n", "job.answer": b"mine\n"}
        folder = self.folder / "files"
        self.answers(files)
        for name, content in mine.items():
            (folder / name).write_bytes(content)
        (folder / "other.answer").unlink()
        (folder / "other.answer").symlink_to("notes.txt")
        (folder / "notes.txt").write_bytes(ACCEPTED)
        status, lines, said = self.run_script()
        self.assertEqual((1, ""), (status, said))
        for name in ("job", "other"):
            in_the_way = f"{name}: {name}.answer is in the way: it is no answer of station_check"
            self.assertIn(in_the_way, lines)
        self.assertEqual(SUMMARY.format(0, 2, 0, 0, 2), lines[-1])
        for name, content in {**mine, "notes.txt": ACCEPTED}.items():
            self.assertEqual(content, (folder / name).read_bytes())
        self.assertTrue((folder / "other.answer").is_symlink())
        self.assertFalse([line for line in lines if line.startswith("client")])
        # An answer of before, and one that was begun, give way to the new one.
        for before in (ACCEPTED, b"", b"refused: no station\n"):
            (folder / "job.answer").write_bytes(before)
            self.assertIn(f"job: {ACCEPTED_S1}", self.run_script()[1])
            self.assertEqual(ACCEPTED, (folder / "job.answer").read_bytes())

    def test_names_control_no_terminal(self):
        """Signs in them that would are shown as escapes, in each line that is printed."""
        name = "job\n1 of 1 field files done; \x1b[8m\\"
        shown = r"job\x0a1 of 1 field files done; \x1b[8m\x5c"
        status, lines = self.answers({f"{name}.gsi": STATION, f"{name}.csv": WRONG})
        self.assertEqual(1, status)
        self.assertEqual([f"{shown}: refused: kernel: TargetSum 1", f"{shown}: {MISSING.format('S1')}"], lines[:2])
        status, lines = self.answers({f"{name}.S1.directions.csv": TABLE, f"{name}.answer": ACCEPTED})
        self.assertEqual([True] * 2, [line.startswith(shown) for line in lines[:-1]])
        status, lines, said = self.run_script(folder=self.folder / name)
        self.assertEqual((2, [], 1), (status, lines, said.count("\n")))
        self.assertIn(shown, said)
        # Bytes that are no letters too.
        (self.folder / "files").mkdir(exist_ok=True)
        self.answers({})
        with open(os.path.join(os.fsencode(self.folder / "files"), b"\x9b8m.gsi"), "wb") as file:
            file.write(STATION)
        line = self.run_script()[1][0]
        self.assertTrue(line.startswith(r"\x9b8m: "), line)

    def test_what_is_no_file_holds_nothing_up(self):
        """A pipe that nobody writes to, a folder, a link to nothing."""
        said = "no file, but a folder, a pipe or a link to nothing"
        make = [os.mkfifo, os.mkdir, lambda path: os.symlink("nothing", path)]
        for make_one in make:
            self.answers({"job.gsi": STATION})
            make_one(self.folder / "files" / "job.csv")
            status, lines, _ = self.run_script()
            self.assertEqual((1, f"job: {said}"), (status, lines[0]))
            shutil.rmtree(self.folder / "files")
            self.answers({"job.csv": SHEET, "two.directions.csv": TABLE})
            for name in ("job.gsi", "two.gsi"):
                make_one(self.folder / "files" / name)
            status, lines, _ = self.run_script()
            self.assertEqual((1, SUMMARY.format(0, 2, 0, 0, 1)), (status, lines[-1].partition("; of the tables")[0]))
            self.assertIn(f"job: {said}", lines)
            shutil.rmtree(self.folder / "files")

    def test_a_sheet_is_one_whatever_its_station_is_called(self):
        """As that of a station whose name ends like that of a table."""
        field = edited(widened(STATION), (b"00000000000000S1", b"000S1.directions"))
        sheet = edited(SHEET, (b",S1,", b",S1.directions,"))
        status, lines = self.answers({"job.gsi": field, "job.S1.directions.csv": sheet})
        self.assertEqual((0, SUMMARY.format(1, 1, 1, 0, 0)), (status, lines[-1]))

    def test_folders_inside_are_skipped(self):
        originals = self.folder / "files" / "originals"
        originals.mkdir(parents=True)
        (originals / "job.gsi").write_bytes(b"a line of titles\n" + STATION)
        for name, content in ("job.gsi", STATION), ("job.csv", SHEET):
            (self.folder / "files" / name).write_bytes(content)
        status, lines, said = self.run_script()
        self.assertEqual((0, SUMMARY.format(1, 1, 1, 0, 0), ""), (status, lines[-1], said))
        self.assertEqual(["job.gsi"], [path.name for path in originals.iterdir()])

    def test_a_folder_without_a_fault_has_status_0(self):
        (self.folder / "files").mkdir()
        for number in range(RIGHT):
            self.write(number)
        summary = SUMMARY.format(RIGHT, RIGHT, RIGHT, 0, 0)
        for args in [], ["--jobs=1"], ["--two-c", "10", "--two-i=2", "--residual=1"]:
            status, lines, said = self.run_script(*args)
            self.assertEqual((0, "", summary), (status, said, lines[-1]))

    def test_limits_are_those_of_the_command_line(self):
        files = {"job.gsi": STATION, "job.csv": SHEET}
        two_c = ["job: refused: block 5: TwoC"] * 2
        self.assertEqual(two_c, self.answers(files, "--two-c=9")[1][:-1])
        two_i = ["job: refused: block 6: TwoI"] * 2
        self.assertEqual(two_i, self.answers(files, "--two-i", "1")[1][:-1])
        residual = ["job: refused: kernel: Residual 1", f"job: {MISSING.format('S1')}"]
        self.assertEqual(residual, self.answers(files, "--residual=0")[1][:-1])

    def test_a_folder_of_nothing_has_status_1(self):
        (self.folder / "files").mkdir()
        self.assertEqual((1, [SUMMARY.format(0, 0, 0, 0, 0)], ""), self.run_script())

    def test_where_nothing_can_be_checked_the_status_is_2(self):
        (self.folder / "files").mkdir()
        (self.folder / "empty").mkdir()
        for said, args in [
            ("none: No such file or directory\n", {"folder": self.folder / "none"}),
            ("check_folder.py: cannot open : No such file", {"folder": ""}),
            ("usage: ", {"folder": "-x"}),
            ("no station_check is on the path", {"path": self.folder / "empty"}),
        ]:
            status, lines, answer = self.run_script(**args)
            self.assertEqual((2, []), (status, lines))
            self.assertIn(said, answer)
        long = "x" * (255 - len(".csv"))  # with .answer it is too long
        (self.folder / "long").mkdir()
        (self.folder / "long" / f"{long}.gsi").write_bytes(STATION)
        (self.folder / "long" / f"{long}.csv").write_bytes(SHEET)
        status, lines, answer = self.run_script(folder=self.folder / "long")
        self.assertEqual((2, []), (status, lines))
        self.assertIn(f"cannot write {long}.answer: File name too long", answer)
        mistakes = [["--residual=0.3"], ["--two-c=1", "--two-c=2"], ["--two-x=1"], ["more"], ["--within=x"]]
        mistakes += [["--degrees", "--degrees"], ["--degrees=yes"], ["--columns=1"], ["--dmmss"] * 2]
        for options in mistakes:
            status, lines, answer = self.run_script(*options)
            self.assertEqual((2, []), (status, lines), options)
            self.assertNotEqual("", answer)


if __name__ == "__main__":
    unittest.main()
