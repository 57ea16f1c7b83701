"""`explain`: each fault is explained, and its example is met."""

import re
import sys

import model
import preload
from kinds import NEVER_MET, OF_BYTES, OF_COUNTS, OF_READS, OF_TITLES, REFUSALS, refusal_in
from program import EXAMPLE, PROGRAM, ROOT, ProgramTest, answer_in_shell, answer_of

sys.path.insert(0, str(ROOT / "conformance"))
sys.path.insert(0, str(ROOT / "tools"))
import faults  # noqa: E402
import run  # noqa: E402

APART_15 = "Apart 0.015 mgon, limit 0.010 mgon"

NO_MEMORY = b"refused: out of memory\n"

WRITE_FAILED = b"refused: write failed\n"

# One block more than fills a file of the largest size.
TOO_LONG_FILE = b"110001+0000000A\n" * 1_048_577

# A row of a table of faults: its first column, with all its names.
FAULT_ROW = re.compile(r"^\| (`[^|]*`) \| ")

WIDEST = 100

# What the line of a refusal has before the name of its fault.
PLACE = r"^(block \d+(: mark|: change)?|field file|(sheet|table)( row \d+)?|means|kernel|adjust|compare): "


def explained(*words):
    """What is printed of a fault that is asked for so; it must be there."""
    status, stdout, stderr = answer_of(["explain", *words])
    assert (status, stderr) == (0, b""), stderr
    return stdout.decode()


def names():
    return [fault.name for fault in faults.listed(PROGRAM)]


def tables_of_faults():
    """The names in the tables of docs/FORMATS.md whose columns are fault and when, with where the
    fault stands between or not."""
    found, in_table = [], False
    for line in (ROOT / "docs" / "FORMATS.md").read_text().splitlines():
        if line in ("| Fault | When |", "| Fault | Where | When |"):
            in_table = True
        elif not line.startswith("|"):
            in_table = False
        elif in_table and (row := FAULT_ROW.match(line)):
            found += re.findall(r"`([^`]*)`", row[1])
    return found


class ExplainTest(ProgramTest):
    def test_all_names_are_different_and_each_is_explained(self):
        listed = faults.listed(PROGRAM)
        self.assertEqual(len(listed), len({fault.name for fault in listed}))
        for fault in listed:
            with self.subTest(fault.name):
                explanation = faults.explanation_of(PROGRAM, fault.name)
                self.assertIn(fault.name, explanation.names)
                self.assertEqual(fault.meaning, explanation.meaning)
                for part in [explanation.meaning, explanation.when, explanation.remedy]:
                    self.assertTrue(part.strip())

    def test_each_refusal_of_a_case_is_explained(self):
        known = set(names())
        for case in run.cases():
            if case.expected[0] != 1:
                continue
            line = refusal_in(case.expected[2])
            with self.subTest(line):
                text = explained(line)
                self.assertEqual(text, explained(*line.split()))
                self.assertTrue(set(faults.parsed(text).names) <= known)
                self.assertIn(self.name_in(line), faults.parsed(text).names)

    def name_in(self, line):
        """The name of the fault in the line of a refusal, found in another way than the program's."""
        reason = line.removeprefix("refused: ")
        reason = re.sub(PLACE, "", reason)
        return re.sub(r"( \d+)+$| [0-9n.]+ mgon, limit [0-9n.]+ mgon$", "", reason)

    def test_each_kind_of_refusal_is_explained(self):
        others = ["cannot open", "already there", "write failed", "out of memory"]
        kinds = [*REFUSALS, *OF_COUNTS, *OF_BYTES, *OF_TITLES, *OF_READS, *NEVER_MET, *others]
        found = {self.name_in(re.sub(r" n\b", " 1", kind)) for kind in kinds}
        self.assertEqual(found, set(names()))

    def test_each_fault_of_the_formats_is_explained(self):
        found = tables_of_faults()
        self.assertGreater(len(found), 40)
        known = set(names())
        for name in found:
            name = re.sub(r"( m)? n$", "", name)
            if name.endswith(" FAULT"):
                continue
            with self.subTest(name):
                angles = {f"Hz {name}", f"Zenith {name}"}
                self.assertTrue(name in known or angles <= known)

    def examples(self):
        return {faults.explanation_of(PROGRAM, name).example for name in names()}

    def test_each_example_comes(self):
        met = {refusal_in(case.expected[2]) for case in run.cases() if case.expected[2]}
        never = {f"refused: {kind}" for kind in NEVER_MET}
        for example in sorted(self.examples() - met - never):
            with self.subTest(example):
                self.assertEqual(f"{example}\n".encode(), self.refusal_like(example))

    def refusal_like(self, example):
        """The refusal of a run that no case is: too large, of a failing output or memory, or of the
        title of targets where the case is of that of directions."""
        long_sheet = self.folder / "sheet.csv"
        if example.endswith("TwiceTitled 1"):
            table = self.folder / "table.csv"
            table.write_bytes(b"Target;Target;Hz\nA;A;0\nB;B;50.00003\n")
            return answer_of(["compare", "--columns=Target,Hz", EXAMPLE, "S1", table])[2]
        if example.endswith("FileTooLong"):
            return answer_of(["list", "/dev/stdin"], TOO_LONG_FILE)[2]
        if example.endswith("TooLong"):
            long_sheet.write_bytes(b" " * (model.LONGEST_SHEET + 1))
            return answer_of(["check", EXAMPLE, long_sheet])[2]
        if example.startswith("cannot open"):
            return answer_of(["list", "field.gsi"], cwd=self.folder)[2]
        if example.startswith("already there"):
            (self.folder / "marked.gsi").touch()
            return answer_of(["mark", EXAMPLE, "marked.gsi"], cwd=self.folder)[2]
        if example.endswith("write failed"):
            return answer_in_shell('"$@" > /dev/full', "--help")[2]
        env = {"LD_PRELOAD": str(preload.built("refuse_allocation")), "REFUSE_CALL": "1"}
        return answer_of(["list", EXAMPLE], env={**env, "REFUSE_ALL": "1"})[2]

    def test_a_fault_is_asked_for_by_its_name_or_by_its_line(self):
        for name, lines in [
            ("TwoC", ["block 4: TwoC", "refused: block 4: TwoC", "refused:  block 4: TwoC"]),
            ("Hz Unit", ["block 3: Hz Unit", "refused: block 3: Hz Unit", "Zenith Unit"]),
            ("WordTwice", ["WordTwice 42", "refused: block 1: WordTwice 42"]),
            ("no station", ["refused: no station"]),
            ("Read", ["sheet: Read", "table: Read", "refused: block 1: Read", "refused: field file: Read"]),
            ("Range", ["sheet row 3: Range", "refused: table row 2: Range"]),
            ("Missing", ["Missing 2", "refused: table: Missing 2"]),
            ("Residual", ["kernel: Residual 1", "refused: adjust: Residual 1"]),
            ("OneSet", ["mark: OneSet", "refused: block 4: mark: OneSet"]),
            ("TooManySets", ["refused: block 164: mark: TooManySets"]),
            ("NameTooLong", ["refused: block 1: mark: NameTooLong", "refused: block 9: change: NameTooLong"]),
            ("NoSuchLine", ["change: NoSuchLine", "refused: block 62: change: NoSuchLine"]),
            ("Apart", ["Apart 15", f"compare: {APART_15}", f"refused: compare: {APART_15}"]),
            ("out of memory", ["refused: out of memory"]),
            ("cannot open", ["Cannot open"]),
        ]:
            for line in [name, *lines]:
                for words in [[line], line.split()]:
                    with self.subTest(words):
                        self.assertEqual(explained(name), explained(*words))

    def test_capitals_and_small_letters_are_alike(self):
        for name in names():
            for written in [name.lower(), name.upper(), f"REFUSED: BLOCK 3: {name.swapcase()}"]:
                with self.subTest(written):
                    self.assertEqual(explained(name), explained(*written.split()))

    def test_no_two_faults_have_one_name_but_for_capitals(self):
        self.assertEqual(len(names()), len({name.lower() for name in names()}))

    def test_a_name_that_no_fault_has_is_a_mistake(self):
        for words in [["nonsense"], [""], ["Hz", "n"], ["Bite"]]:
            with self.subTest(words):
                said = "'station_check explain' lists all names"
                self.assertEqual(f"{said}\n", self.said_of_no_fault(*words))

    def test_names_near_one_that_no_fault_has_are_said(self):
        angles = ["Unit", "InputMode", "Sign", "Digits", "Range"]
        for words, near in [
            (["Hz"], [f"Hz {angle}" for angle in angles]),
            (["unit"], ["Hz Unit", "Zenith Unit"]),
            (["refused: block 3: DIGITS"], ["Hz Digits", "Zenith Digits"]),
            (["sum"], ["TargetSum", "SetSum"]),
            (["Byte", "x"], ["Byte"]),
            (["TwoC", ":"], ["TwoC"]),
            (["Residuals"], ["Residual"]),
            (["FaceTwise"], ["FaceUnclear", "FaceTwice", "FaceMissing"]),
            (["targetsom"], ["TargetCount", "TargetRow", "TargetSum"]),
            (["kernel: Residal 17"], ["Residual"]),
        ]:
            with self.subTest(words):
                lines = self.said_of_no_fault(*words).splitlines()
                self.assertEqual(["these are near:", ""], lines[:2])
                listed = explained().splitlines()
                starts = tuple(f"{name:<16}  " for name in near)
                self.assertEqual([line for line in listed if line.startswith(starts)], lines[2:])

    def said_of_no_fault(self, *words):
        """What follows the name that no fault has, up to the end of the message."""
        status, stdout, stderr = answer_of(["explain", *words])
        self.assertEqual((2, b""), (status, stdout))
        start = f"error: no fault has the name '{' '.join(words)}'; "
        self.assertTrue(stderr.decode().startswith(start), stderr)
        said, usage, _ = stderr.decode().removeprefix(start).partition(f"\n\nUsage: {PROGRAM.name} ")
        self.assertNotEqual("", usage)
        self.assertFalse(said.endswith("\n"), said)
        return f"{said}\n"

    def test_an_output_that_takes_nothing_is_a_refusal(self):
        for words in ["explain", "explain TwoC"]:
            for output in [">/dev/full", ">&-"]:
                with self.subTest(words, output=output):
                    answer = answer_in_shell(f'"$@" {words} {output}')
                    self.assertEqual((1, b"", WRITE_FAILED), answer)

    def test_a_failing_standard_error_changes_no_status(self):
        for words, status in [("explain nonsense", 2), ("explain > /dev/full", 1)]:
            with self.subTest(words):
                self.assertEqual(status, answer_in_shell(f'"$@" {words} 2>&-')[0])

    def test_no_line_is_too_wide(self):
        for text in [explained(), *map(explained, names())]:
            for line in text.splitlines():
                self.assertLessEqual(len(line), WIDEST, line)

    def test_an_explanation_looks_so(self):
        expected = (
            "Datum: the direction of the first target is not 0\n"
            "\n"
            "Directions are stated from the first target of the station, so its own is 0.\n"
            "\n"
            "  refused: kernel: Datum\n"
            "\n"
            "What to do: Take the direction of the first target from all directions and all orientations. No\n"
            "residual changes by that.\n"
        )
        self.assertEqual(expected, explained("Datum"))
