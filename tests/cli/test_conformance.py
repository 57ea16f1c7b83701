"""The cases of conformance/ over the program, and over the model."""

import os
import re
import subprocess
import sys
import unittest
from argparse import ArgumentParser
from functools import partial

import model
from kinds import OF_COUNTS, OF_READS, OF_TITLES, REFUSALS, kind_of
from program import PROGRAM, ROOT, ProgramTest

sys.path.insert(0, str(ROOT / "conformance"))
import run  # noqa: E402

RUNNER = ROOT / "conformance" / "run.py"

CASES = ["check_of_the_example", "fault_hz_unit"]

# Programs in Python: one that runs the true one, one that never ends, one that ends with a child
# left, and one that ends at once.
WRAPPER = "import os, sys\nos.execv({!r}, sys.argv)\n"
ENDLESS = "while True: pass\n"
WITH_CHILD = "import os, time\nif os.fork() == 0: time.sleep(1000)\n"
NOTHING = ""

# One that finds a mistake in each command line, and has words of its own for it.
STRICT = "import sys\nsys.exit(print('not so', file=sys.stderr) or 2)\n"


class Mistake(Exception):
    """The words of a command line are none that a program takes."""


class Parser(ArgumentParser):
    def error(self, message):
        raise Mistake(message)


def limit(text, unit, largest):
    """The limit that a text states."""
    stated = model.limit(text, unit, largest)
    if stated is None:
        raise Mistake(text)
    return stated


def numbers(texts, most):
    """The number that is stated of each station, or none, and those of single ones by name."""
    found = {}
    for text in texts:
        name, equals, number = text.rpartition("=")
        of = model.name_of(name.encode()) if equals else None
        is_number = re.fullmatch("[0-9]+", number) and 1 <= int(number) <= most
        if of in found or not is_number or (equals and not model.is_name(name.encode())):
            raise Mistake(text)
        found[of] = int(number)
    return found.pop(None, None), found


def columns(text):
    """The columns of targets and of directions that are stated, by numbers or by titles."""
    stated = model.columns_in(text.encode())
    if stated is None:
        raise Mistake(text)
    return stated


def line_number(text):
    """The number of a line."""
    if not re.fullmatch("[0-9]{0,10}", text) or int(text or 0) >= 2**32:
        raise Mistake(text)
    return int(text or 0)


def renaming(text):
    """The number of a line, and the name of its point."""
    number, equals, name = text.partition("=")
    if not equals or not model.is_name(name.encode()):
        raise Mistake(text)
    return line_number(number), name.encode()


def notes_asked(asked):
    """What a report is told to note, and in which language."""
    language = model.LANGUAGES[asked.language or "en"]
    lines = [model.note_in(text, language) for text in asked.note]
    if None in lines:
        raise Mistake(asked.note)
    return model.ReportNotes(asked.date, lines, asked.signature, language, asked.pages)


def command_line():
    parser = Parser(allow_abbrev=False)
    of_faces = partial(limit, unit=model.FACE_UNIT, largest=model.LARGEST_LIMIT)
    parser.add_argument("--two-c", type=of_faces, default=model.USUAL_LIMIT)
    parser.add_argument("--two-i", type=of_faces, default=model.USUAL_LIMIT)
    of_residuals = partial(limit, unit=model.RESIDUAL_UNIT, largest=model.LARGEST_RESIDUAL)
    parser.add_argument("--residual", type=of_residuals)
    parser.add_argument("--decimals", type=int, default=model.USUAL_DECIMALS)
    of_tables = partial(limit, unit=model.TABLE_UNIT, largest=model.LARGEST_WITHIN)
    parser.add_argument("--within", type=of_tables)
    parser.add_argument("--station", type=str.encode)
    parser.add_argument("--all", action="store_true")
    parser.add_argument("--csv", action="store_true")
    parser.add_argument("--decimal-comma", action="store_true")
    parser.add_argument("--json", action="store_true")
    parser.add_argument("--degrees", action="store_const", const="degrees", dest="unit", default="gon")
    parser.add_argument("--dmmss", action="store_const", const="dmmss", dest="unit")
    parser.add_argument("--columns", type=columns)
    parser.add_argument("--table")
    parser.add_argument("--sha256", action="store_true")
    parser.add_argument("--sets", action="append", default=[])
    parser.add_argument("--targets", action="append", default=[])
    parser.add_argument("--others", action="store_true")
    parser.add_argument("--same-set-up", action="store_true")
    parser.add_argument("--again", action="store_true")
    parser.add_argument("--station-code", type=str.encode)
    parser.add_argument("--leave-out", action="append", type=line_number, default=[])
    parser.add_argument("--rename", action="append", type=renaming, default=[])
    parser.add_argument("--date", type=str.encode)
    parser.add_argument("--note", action="append", type=str.encode, default=[])
    parser.add_argument("--language", choices=model.LANGUAGES)
    parser.add_argument("--signature", action="store_true")
    parser.add_argument("--pages", action="store_true")
    parser.add_argument("command", nargs="?")
    parser.add_argument("operands", nargs="*")
    return parser


# The commands that are of one station, whose name may be left out, or of all; and those of them whose
# last word is the path of a table.
OF_STATION = ["means", "directions", "report", "compare", "differences"]
OF_TABLE = ["compare", "differences"]


def places_of_files(asked):
    """Which of the operands are files."""
    if asked.command in OF_TABLE:
        return [0, len(asked.operands) - 1]
    return [0, 1] if asked.command == "check" else [0]


def answer_of_all(asked, data, limits, fails, held, formed, notes):
    """What the model answers of all stations of a file, which nothing that is of one may stand
    beside."""
    of_one = [asked.table, asked.within, asked.columns, asked.sha256, asked.unit != "gon"]
    if asked.command not in ["directions", "report"] or len(asked.operands) != 1 or any(of_one):
        return (2, b"", b"")
    if asked.command == "directions":
        joined, one = model.named_directions, partial(model.directions, decimals=asked.decimals)
    elif asked.csv:
        joined, one = model.titled_once, partial(model.observed_rows, **formed)
    else:
        path = asked.operands[0].encode()
        joined, one = model.paged, partial(model.reported, path=path, notes=notes)

    def of_name(name):
        return one(data, name=name, limits=limits, **held)

    found = model.of_all(data, limits, fails, of_name, joined)
    return model.with_recorded_rows(found, data, **formed) if asked.csv else model.in_pages(found, notes)


def answer_of_table(asked, files, limits, fails, held, formed):
    """The same of all stations and of one table."""
    if len(asked.operands) != 2 or asked.json or asked.sha256:
        return (2, b"", b"")
    form = model.form_in_part(model.TableForm(asked.unit, asked.columns))
    if asked.command == "compare":
        joined, one = model.line_by_line, partial(model.compared, within=asked.within)
    else:
        joined, one = model.named_differences, model.differences

    def of_part(name, part):
        return one(files[0], name, part, limits, form=form, **held)

    found = model.of_table_of_all(*files, limits, fails, of_part, joined)
    return model.written(found, model.NAMES_OF_ALL, **formed)


def station_of(asked, data, limits, fails):
    """The name of the station: the only one of the file, where none is stated and not all are asked
    for."""
    stated = asked.operands[1 : len(asked.operands) - (asked.command in OF_TABLE)]
    if asked.all or asked.command not in OF_STATION or stated:
        return b"".join(name.encode() for name in stated[:1])
    return model.only_station(data, limits, fails)


# The commands that take a limit of residuals.
HELD = ["check", "compare", "differences", "directions", "report"]


def model_answer(case):
    """What the model answers; a folder is a file whose first read fails. It has no words for a
    mistake on the command line."""
    try:
        asked = command_line().parse_intermixed_args(case.args)
        sets, own_sets = numbers(asked.sets, model.MOST_SETS)
        targets, own_targets = numbers(asked.targets, model.MOST_TARGETS)
        notes = notes_asked(asked)
    except Mistake:
        return (2, b"", b"")
    if asked.residual is not None and asked.command not in HELD:
        return (2, b"", b"")
    if asked.decimal_comma and asked.command in ["list", "report"] and not asked.csv:
        return (2, b"", b"")
    if asked.json and (asked.command != "differences" or asked.decimal_comma):
        return (2, b"", b"")
    is_noted = asked.language or notes != model.ReportNotes()
    if is_noted and (asked.command != "report" or asked.csv):
        return (2, b"", b"")
    limits, held = model.Limits(asked.two_c, asked.two_i), {"residual": asked.residual}
    formed = {"decimal_comma": asked.decimal_comma}
    reads_table = asked.command in OF_TABLE
    if asked.command and len(asked.operands) < 1 + reads_table:
        return (2, b"", b"")
    if asked.columns and not (reads_table or asked.table):
        return (2, b"", b"")
    places = places_of_files(asked)
    paths = [case.folder / name for place, name in enumerate(asked.operands) if place in places]
    paths += [case.folder / asked.table] if asked.table else []
    for path in paths:
        if not path.exists():
            return (2, b"", f"cannot open {path.name}\n".encode())
    files = [b"" if path.is_dir() else path.read_bytes() for path in paths]
    fails = [path.is_dir() for path in paths]
    if asked.command is None:
        return model.words(case.stdin)
    if asked.command == "words":
        return model.words(files[0], fails[0])
    if asked.command == "list" and asked.csv:
        return model.listed_rows(files[0], limits, fails[0], **formed)
    if asked.command == "list":
        return model.listed(files[0], limits, fails[0])
    if asked.command == "check":
        return model.check(*files, limits, fails=fails, **held)
    if asked.command == "change":
        return model.changed(files[0], asked.leave_out, asked.rename, fails[0])
    if asked.command == "mark":
        code = asked.station_code and model.name_of(asked.station_code)
        if code in (b"10", b"20", b"30") or not (code is None or model.is_name(code)):
            return (2, b"", b"")
        begins = {"same_set_up": asked.same_set_up, "code": code, "again": asked.again}
        own = own_sets, own_targets
        stated = model.StatedSets(sets, targets, asked.others, *own, **begins)
        return model.marked(files[0], asked.station, fails[0], stated)
    try:
        station = station_of(asked, files[0], limits, fails[0])
        if asked.columns:
            asked.columns = model.numbered_columns(files[-1], asked.columns, fails[-1])
    except model.Refusal as refusal:
        return model.refused_with(refusal)
    if asked.all and reads_table:
        return answer_of_table(asked, files, limits, fails, held, formed)
    if asked.all:
        return answer_of_all(asked, files[0], limits, fails[0], held, formed, notes)
    form = model.TableForm(asked.unit, asked.columns)
    if asked.command == "means":
        return model.means(files[0], station, limits, fails[0])
    if asked.command == "directions":
        return model.directions(files[0], station, limits, asked.decimals, fails[0], **held, **formed)
    if asked.command == "differences":
        formed["as_json"] = asked.json
        return model.differences(files[0], station, files[1], limits, form, fails, **held, **formed)
    if asked.command == "report" and asked.csv:
        rows = model.reported_rows(files[0], station, limits, fails=fails[0], **held, **formed)
        path = asked.operands[0].encode()
        return model.with_file_row(rows, path, files[0], **formed) if asked.sha256 else rows
    if asked.command == "report":
        names = [name.encode() for name in [asked.operands[0], asked.table] if name]
        units = asked.within, form
        stated = model.ReportTable(names[1], files[1], *units, fails[1]) if asked.table else None
        report = model.reported(files[0], names[0], station, limits, fails[0], stated, **held, notes=notes)
        recorded = partial(model.with_digests, report, *zip(names, files), language=notes.language)
        return model.in_pages(recorded() if asked.sha256 else report, notes)
    units = asked.within, form
    return model.compared(files[0], station, files[1], limits, *units, fails, **held)


class ConformanceTest(unittest.TestCase):
    maxDiff = None

    def test_the_program_answers_as_each_case_says(self):
        for case in run.cases():
            with self.subTest(case.name):
                found = run.answer([PROGRAM], case)
                self.assertTrue(case.takes(found), (case.expected, found))

    def test_the_model_answers_as_each_case_says(self):
        """But for the largest station: the model looks back over all blocks, which takes long."""
        for case in run.cases():
            if case.name.endswith("_of_the_largest_station"):
                continue
            with self.subTest(case.name):
                self.assertEqual(case.expected, model_answer(case))

    def test_each_refusal_has_a_case(self):
        met = {kind_of(case.expected) for case in run.cases() if case.expected[0] == 1}
        self.assertEqual({*REFUSALS, *OF_COUNTS, *OF_TITLES, *OF_READS}, met)

    def test_each_case_lies_where_its_answer_belongs(self):
        statuses = {"answered": 0, "refused": 1, "mistaken": 2}
        for case in run.cases():
            with self.subTest(case.name):
                kind = case.folder.relative_to(run.FOLDER).parts[0]
                self.assertEqual(statuses[kind], case.expected[0])
        self.assertEqual(len(list(run.FOLDER.rglob("args"))), len(run.cases()))

    def test_what_is_named_a_fault_is_refused(self):
        for case in run.cases():
            with self.subTest(case.name):
                refused = any(line.startswith(b"refused: ") for line in case.expected[2].splitlines())
                self.assertEqual(case.name.startswith("fault_"), refused)


class RunnerTest(ProgramTest):
    def run_cases(self, *args, **more):
        run = {"cwd": self.folder, "capture_output": True, "text": True, "timeout": 60}
        done = subprocess.run([sys.executable, RUNNER, *args], **run, **more)
        return done.returncode, done.stdout, done.stderr

    def test_a_program_is_named_in_many_ways(self):
        (self.folder / "a program").symlink_to(PROGRAM.resolve())
        (self.folder / "wrapper.py").write_text(WRAPPER.format(str(PROGRAM.resolve())))
        path = {**os.environ, "PATH": f"{self.folder}{os.pathsep}{os.environ['PATH']}"}
        for program, more in [
            (PROGRAM.resolve(), {}),
            ("./a program", {}),
            (f"'{sys.executable}' wrapper.py", {}),
            ("a program", {"env": path}),
        ]:
            with self.subTest(program):
                answer = self.run_cases(program, *CASES, **more)
                self.assertEqual((0, "2 passed, 0 failed\n", ""), answer)

    def test_a_program_that_hangs_fails_its_case(self):
        for source in [ENDLESS, WITH_CHILD]:
            (self.folder / "other.py").write_text(source)
            command = f"{sys.executable} other.py"
            status, printed, said = self.run_cases(command, "--time=0.5", *CASES)
            self.assertEqual((1, ""), (status, said))
            self.assertTrue(printed.endswith("\n0 passed, 2 failed\n"), printed)
            self.assertEqual(2, printed.count("\n  found    no answer in 0.5 s\n"), printed)

    def test_another_answer_is_shown(self):
        (self.folder / "other.py").write_text(NOTHING)
        status, printed, _ = self.run_cases(f"{sys.executable} other.py", *CASES, "list_of_nothing")
        self.assertEqual(1, status)
        self.assertTrue(printed.startswith("check_of_the_example\n  expected (0, b'accepted S1: "))
        self.assertIn("\n  found    (0, b'', b'')\n", printed)
        self.assertTrue(printed.endswith("\n1 passed, 2 failed\n"), printed)

    def test_a_mistake_is_said_in_any_words_but_a_path_in_its_own(self):
        (self.folder / "other.py").write_text(STRICT)
        cases = ["residual_limit_of_means", "cannot_open"]
        status, printed, _ = self.run_cases(f"{sys.executable} other.py", *cases)
        self.assertEqual(1, status)
        self.assertTrue(printed.startswith("cannot_open\n  expected (2, b'', b'cannot open "), printed)
        self.assertTrue(printed.endswith("\n1 passed, 1 failed\n"), printed)

    def test_a_program_or_a_case_that_is_not_there_is_a_mistake(self):
        for args, said in [
            ([], "required: PROGRAM"),
            (["none"], "no program none is found"),
            ([""], "no program  is found"),
            (["./none x"], "no program ./none x is found"),
            ([PROGRAM.resolve(), *CASES, "none", "README.md"], "no case README.md, none"),
        ]:
            status, printed, answer = self.run_cases(*args)
            self.assertEqual((2, ""), (status, printed))
            self.assertIn(said, answer)


if __name__ == "__main__":
    unittest.main()
