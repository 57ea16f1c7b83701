"""What README.md, the guide and the pages beside it show is what the program does: each command that
they show, in one copy of examples/; the faults and options of the guide's table of refusals; the
numbers of the table of rounding, by `compare` itself; the bounds and the printed texts in the formats,
and the bounds in other pages;
the links of all pages; the picture of the crates, and the files to which a change goes; the limits of
the library; the heads of tests. And that the proof of `find` alone opens the seal of what the solver
said."""

import ast
import csv
import importlib
import math
import re
import sys
import unittest
from fractions import Fraction

from pages import SHOWN, checked, page_steps
from program import EXAMPLE, PROGRAM, ROOT, TimedTest, answer_of

sys.path[:0] = [str(ROOT / name) for name in ("tests", "tools")]

import faults
import gate

GUIDE = ROOT / "docs" / "GUIDE.md"
FORMATS = ROOT / "docs" / "FORMATS.md"
TABLES = ROOT / "docs" / "TABLES.md"

# The bounds that a reader of the formats meets, as the laws of these crates have them in digits; and
# how the page writes a power of ten.
BOUNDED = ["adjust_kernel", "direction_table", "gsi_file", "gsi_word", "set_marks", "sheet_format", "station_book"]
BOUND = re.compile(r"ensures \w+ \{ ((?:LONGEST|LARGEST|MOST|USUAL|TURN)\w*) ≡ (?:pos )?([\d_]+) \}")
POWER = re.compile(r"10(0+)")

# Bounds of what nobody reads or writes: of numbers within the program.
WITHIN = {"LONGEST_FAULT_NAME", "LARGEST_RESIDUAL"}

# A text that definitions say is printed; crates whose texts are none of a run (lines that are read, the
# command line's, explanations, the page's own); and what is too short to tell.
PRINTED = re.compile(r'codes "((?:[^"\\]|\\.)*)"')
OF_NO_RUN = {
    "changed_lines", "gsi_word", "command_line", "command_run", "station_explain", "station_page",
    "refusal_places",
}
SHORT = 6

# A row of the page of tables: how directions are printed, what rounding explains in mgon, the limit if
# none is stated, and the least to state. A second of arc and a degree have so many mgon.
ROUNDED = re.compile(r"^\| (.*?) \| ([\d.]+) \| ([\d.]+) mgon \| `--within ([\d.]+)mgon` \|$", re.MULTILINE)
DEGREE = Fraction(400_000, 360)
SECOND = DEGREE / 3600
ARCHITECTURE = ROOT / "docs" / "ARCHITECTURE.md"

# The phrases of reports in each language.
PHRASES = ROOT / "docs" / "phrases.csv"

# Sentences of other pages that have bounds too, in units of their own; of the residual limit, 200 half
# units are 1 mgon.
SAID = [
    ("GUIDE.md", "at most {LONGEST_FILE_MIB} MiB, with {MOST_STATIONS:,} stations of {MOST_SETS} sets and {MOST_TARGETS} targets"),
    ("GUIDE.md", "the limit is {LARGEST_RESIDUAL_MGON} mgon, the largest"),
    ("MARK.md", "the number of the set, 1 to {LARGEST_SET_NUMBER},"),
    ("SHEETS.md", "denominators up to {LARGEST_DENOMINATOR:,} only"),
    ("SHEETS.md", "if only the largest, {LARGEST_RESIDUAL_MGON} mgon"),
    ("LIBRARY.md", "counted from 1 and at most {LARGEST_COLUMN:,}"),
    ("LIBRARY.md", "a station with a residual above {LARGEST_RESIDUAL_MGON} mgon"),
    ("TRUST.md", "none is above the limit, at most {LARGEST_RESIDUAL_MGON} mgon"),
    ("../CHANGELOG.md", "up to {LONGEST_FILE_MIB} MiB, {MOST_STATIONS:,} stations, {MOST_SETS} sets and {MOST_TARGETS} targets"),
    ("../capi/station_check.h", "define STATION_CHECK_LINE {LONGEST_VERDICT_LINE}"),
]

# A limit that a call of the library takes: its unit, and how many of them it has at most.
LIMIT = re.compile(r"^\| `(\w+)`.* \| ([\d.]+) mgon.* \| ([\d,]+) \|$", re.MULTILINE)

# A path in the text of a page: of the repository, or below crates/; and the name alone of a file of a crate.
NAMED = re.compile(r"`(\w+(?:/[\w.-]+)+)`")
NAMED_ALONE = re.compile(r"`(\w+\.(?:rt|antt))`")

ADDING = ROOT / "docs" / "ADDING.md"
TESTS = ROOT / "docs" / "TESTS.md"

# The head of the guide's table of refusals, the faults of `mark` that have no row there, and the
# options of prepare.py that need none.
REFUSALS = "| Fault | What the field book shows | Way on |\n"
OF_A_READING = {"WordTwice", "NoZenith", "FaceUnclear", "StationName"}
OF_EACH_COPY = {"--help", "--why"}

# The time of the gate on the first page; that of tests has it too, once it was measured.
TIME_OF_GATE = r"^\| `make test` \| .* \| (\d+) minutes \|$"

# That of the build, on both.
TIME_OF_BUILD = r"^\| `make run`, the first time \| (\d+) min (\d+) s \|"
MINUTES_OF_BUILD = r"^\| `make run` \| .* \| (\d+) minutes the first time \|$"

# All pages whose links a reader follows.
LINKED = [
    ROOT / "README.md",
    *sorted(ROOT.glob("docs/*.md")),
    *sorted(ROOT.glob("crates/*/README.md")),
    ROOT / "bench" / "README.md",
    ROOT / "conformance" / "README.md",
    ROOT / "examples" / "README.md",
    ROOT / "page" / "README.md",
]

TRUSTED = ROOT / "page" / "README.md"

# The seal of what the solver said stands in its definition, in the contract and the proof of `find`,
# in the fault that rests on it, and in what the test of an answer requires of it.
SEAL = "WasSaid"
SOLVER = ROOT / "crates" / "modular_solver"
SEALED = [
    SOLVER / "specs" / "Said.antt",
    SOLVER / "src" / "found.rt",
    SOLVER / "proofs" / "found" / "find" / "Answers.antt",
    ROOT / "crates" / "exact_adjustment" / "specs" / "Faults.antt",
    ROOT / "crates" / "exact_adjustment" / "src" / "adjusting.rt",
]

# The readers of the standard library, of which no contract says what they give; and where alone they
# may be named: in the crate that makes sources of them, and at the edge of the program.
OF_THE_SYSTEM = re.compile(
    r"\b(OfRead|Stdin|BufReader)\b|\bstd::(\{[^}]*)?\b(fs|net|os|process)\b|\bio::(\{[^}]*)?\b(Read|stdin)\b"
)
NAMES_ONE = ["OfRead<R>", "use std::io::{self, Read};", "use std::{alloc::Global, fs};", "io::stdin()"]
NAMES_NONE = ["use std::io::{BufWriter, Write};", "use std::alloc::Global;", "FileKind::Read", "read_whole(r)"]
AT_THE_EDGE = ["byte_ends", "command_run/src/host.rt", "station_program/src/main.rt"]

# A part of what is trusted, and how many lines it has.
PART = re.compile(r"`([\w./]+)`(?:: [^|\n]* \|)? (\d+)\b")

LINK = re.compile(r"\]\(([^)#]*)(?:#([^)]*))?\)")


def anchors(page):
    """The names by which the headings of a page can be linked to."""
    headings = re.findall(r"^#+ (.*)$", page, re.MULTILINE)
    return {re.sub(r"[^\w -]", "", heading.lower()).replace(" ", "-") for heading in headings}


class PagesTest(TimedTest):
    maxDiff = None

    def test_each_command_prints_what_its_page_shows(self):
        for page, answers in checked().items():
            self.assertTrue(answers, page)
            for step, printed in answers:
                with self.subTest(page=page.name, command=step.command):
                    if not step.fits(printed):
                        self.assertEqual(step.printed, printed)

    def test_the_pages_run_each_command_of_the_program(self):
        texts = [(ROOT / page).read_text() for page in SHOWN]
        commands = " ".join(step.command for text in texts for step in page_steps(text))
        listed = re.search(r"^Commands:\n(.*?)\n\n", answer_of(["--help"])[1].decode(), re.DOTALL | re.MULTILINE)
        names = re.findall(r"^  (\w+)", listed[1], re.MULTILINE)
        self.assertIn("explain", names)
        for command in [*names, "list --csv", "check --residual", "compare --residual"]:
            if command != "help":
                self.assertRegex(commands, rf"station_check {command} ")

    def test_the_table_of_refusals_has_each_fault_of_mark_and_each_option_of_prepare(self):
        rows = GUIDE.read_text().partition(REFUSALS)[2].partition("\n\n")[0].splitlines()[1:]
        named = set(re.findall(r"`(\w+)`", " ".join(row.split(" | ")[0] for row in rows)))
        section = FORMATS.read_text().partition("### Where sets begin and end")[2].partition("### The code lines")[0]
        of_mark = set(re.findall(r"`([A-Z]\w+)`", " ".join(re.findall(r"^\| (`.*?) \|", section, re.MULTILINE))))
        self.assertGreater(len(of_mark), 20)
        self.assertEqual(set(), of_mark - named - OF_A_READING)
        self.assertEqual(set(), named - {fault.name for fault in faults.listed(PROGRAM)})
        sys.path.insert(0, str(ROOT / "examples"))
        help_of_prepare = importlib.import_module("prepare").command_line().format_help()
        options = set(re.findall(r"^  (?:-\w, )?(--[a-z-]+)", help_of_prepare, re.MULTILINE))
        used = set(re.findall(r"--[a-z-]+", " ".join(re.findall(r"`P (--[^`]*)`", " ".join(rows)))))
        self.assertEqual(options - OF_EACH_COPY, used)

    def test_the_table_of_rounding_is_right(self):
        """And each limit is the one to which a table so printed is held."""
        rows = ROUNDED.findall(TABLES.read_text())
        self.assertEqual(8, len(rows))
        for printed, rounding, limit, least in rows:
            with self.subTest(printed):
                if found := re.match(r"degrees with (\d)(\.\d+)?\"", printed):
                    zero = "00" + re.sub(r"\d", "0", found[2] or "")
                    text = f"A,0-00-{zero}\nB,45-00-{zero}\n"
                    place = Fraction(found[1] + (found[2] or "")) * SECOND
                else:
                    decimals = int(re.search(r"(\d) decimals", printed)[1])
                    text = f"A,{0:.{decimals}f}\nB,{50 - 5 * ('degrees' in printed):.{decimals}f}\n"
                    place = (DEGREE if "degrees" in printed else 1000) / Fraction(10**decimals)
                self.assertEqual(Fraction(rounding), round(place / 2, 4))
                self.assertEqual(Fraction(least), Fraction(math.ceil(place / 2 * 1000), 1000))
                flags = ["--degrees"] if "degrees" in printed else []
                answer = answer_of(["compare", *flags, EXAMPLE, "S1", "/dev/stdin"], text.encode())
                self.assertIn(f"limit {limit} mgon", (answer[1] + answer[2]).decode())

    def test_the_formats_have_each_bound_of_the_code(self):
        text = FORMATS.read_text()
        laws = "".join((ROOT / "crates" / crate / "src" / "laws.rt").read_text() for crate in BOUNDED)
        bounds = [(name, int(digits)) for name, digits in BOUND.findall(laws) if name not in WITHIN]
        self.assertGreater(len(bounds), 20)
        for name, bound in bounds:
            with self.subTest(name):
                power = POWER.fullmatch(str(bound))
                forms = [str(bound), f"{bound:,}", *([f"10^{len(power[1]) + 1}"] if power else [])]
                self.assertRegex(text, rf"(?<![\d,^])(?:{'|'.join(map(re.escape, forms))})(?!,?\d)")

    def test_other_pages_have_the_bounds_of_the_code(self):
        laws = "".join(path.read_text() for path in ROOT.glob("crates/*/src/laws.rt"))
        bounds = {name: int(digits) for name, digits in BOUND.findall(laws)}
        bounds["LONGEST_FILE_MIB"] = bounds["LONGEST_FILE"] >> 20
        bounds["LARGEST_RESIDUAL_MGON"] = bounds["LARGEST_RESIDUAL_LIMIT"] // 200
        for page, sentence in SAID:
            said = sentence.format_map(bounds)
            with self.subTest(page, said=said):
                self.assertIn(said, (ROOT / "docs" / page).read_text())

    def test_the_formats_or_a_case_have_each_text_that_is_printed(self):
        cases = [path.read_text(errors="replace") for path in ROOT.glob("conformance/*/**/std[eo]*")]
        with PHRASES.open(encoding="utf-8", newline="") as rows:
            phrases = [cell for row in csv.reader(rows) for cell in row]
        known = "".join([FORMATS.read_text(), *cases, *phrases])
        texts = set()
        for path in ROOT.glob("crates/*/specs/**/*.antt"):
            if path.relative_to(ROOT / "crates").parts[0] not in OF_NO_RUN:
                texts |= {ast.literal_eval(f'"{text}"').strip() for text in PRINTED.findall(path.read_text())}
        texts = {text for text in texts if len(text) >= SHORT}
        self.assertGreater(len(texts), 100)
        for text in texts:
            with self.subTest(text):
                self.assertIn(text, known)

    def test_the_time_of_the_gate_is_one(self):
        if measured := gate.MEASURED.search(TESTS.read_text()):
            first = re.search(TIME_OF_GATE, (ROOT / "README.md").read_text(), re.MULTILINE)
            self.assertEqual(measured[1], first[1])

    def test_the_time_of_the_build_is_one(self):
        """In whole minutes on the first page, rounded up."""
        minutes, seconds = map(int, re.search(TIME_OF_BUILD, TESTS.read_text(), re.MULTILINE).groups())
        first = re.search(MINUTES_OF_BUILD, (ROOT / "README.md").read_text(), re.MULTILINE)
        self.assertEqual(minutes + (seconds > 0), int(first[1]))

    def test_links_lead_to_files_and_headings_that_are_there(self):
        for page in LINKED:
            for path, heading in LINK.findall(page.read_text()):
                if path.startswith("http"):
                    continue
                with self.subTest(page=str(page), path=path, heading=heading):
                    target = (page.parent / path).resolve() if path else page
                    self.assertTrue(target.exists())
                    if heading:
                        self.assertIn(heading, anchors(target.read_text()))

    def test_the_limits_of_the_library_are_those_of_its_header(self):
        header = re.sub(r"\s*\n \* ", " ", (ROOT / "capi" / "station_check.h").read_text())
        rows = LIMIT.findall((ROOT / "docs" / "LIBRARY.md").read_text())
        self.assertEqual(["two_c", "residual", "within"], [name for name, _, _ in rows])
        for name, unit, most in rows:
            with self.subTest(name):
                self.assertRegex(header, rf"`{name}`[^.]*(\.\d[^.]*)*units of {unit} mgon, at most {most}\b")

    def test_a_change_goes_to_files_that_are_there(self):
        section = ARCHITECTURE.read_text().partition("## Where a change goes")[2].partition("\n## ")[0]
        # What is made stands below build/, and not in a fresh clone.
        text = section + ADDING.read_text()
        paths = [path for path in NAMED.findall(text) if not path.startswith("build/")]
        self.assertGreater(len(paths), 20)
        for path in paths:
            with self.subTest(path):
                self.assertTrue((ROOT / path).exists() or (ROOT / "crates" / path).exists())
        for name in NAMED_ALONE.findall(text):
            with self.subTest(name):
                self.assertTrue(list(ROOT.glob(f"crates/*/*/{name}")))

    def test_each_crate_of_tests_is_named_for_its_library(self):
        crates = re.findall(r"^(\w+)[^:]*:", (ROOT / "crates.txt").read_text(), re.MULTILINE)
        tests = [crate for crate in crates if crate.startswith("tests_")]
        self.assertTrue(tests)
        self.assertEqual(set(), {crate.removeprefix("tests_") for crate in tests} - set(crates))

    def test_the_picture_of_the_house_has_each_crate_once(self):
        picture = ARCHITECTURE.read_text().partition("```\n")[2].partition("```\n")[0]
        crates = re.findall(r"^(\w+)[^:]*:", (ROOT / "crates.txt").read_text(), re.MULTILINE)
        for crate in crates:
            if not crate.startswith("test"):
                with self.subTest(crate):
                    self.assertEqual(1, len(re.findall(rf"^.{{15}}{crate} ", picture, re.MULTILINE)))

    def test_the_head_of_each_file_of_tests_says_what_it_runs(self):
        for path in ROOT.glob("tests/*/test_*.py"):
            with self.subTest(path.name):
                self.assertTrue(ast.get_docstring(ast.parse(path.read_text())))

    def test_the_seal_of_the_solver_is_opened_by_its_own_proof_alone(self):
        """The prover lets any proof open it, or cite the solver's proofs: so nothing else may."""
        folders = ["src", "specs", "proofs"]
        sources = [path for name in folders for path in ROOT.glob(f"crates/*/{name}/**/*") if path.is_file()]
        texts = {path: path.read_text() for path in sources}
        self.assertEqual(sorted(SEALED), sorted(path for path, text in texts.items() if SEAL in text))
        opened = [path for path in SEALED if re.search(r"\bunfold(ing)?\b", texts[path])]
        self.assertEqual([SOLVER / "proofs" / "found" / "find" / "Answers.antt"], opened)
        cited = [path for path, text in texts.items() if re.search(r"modular_solver(\.|::)proofs", text)]
        self.assertEqual([], [path for path in cited if SOLVER not in path.parents])

    def test_no_code_above_the_ends_names_a_reader_of_the_system(self):
        """A function over such a type may forget what it read, invent other bytes and still meet the
        contract of `check_bytes`; one over every source may not. So this is what makes that contract
        a promise of files."""
        self.assertTrue(all(map(OF_THE_SYSTEM.search, NAMES_ONE)))
        self.assertFalse(any(map(OF_THE_SYSTEM.search, NAMES_NONE)))
        for path in sorted(ROOT.glob("crates/*/src/**/*.rt")):
            name = str(path.relative_to(ROOT / "crates"))
            if not name.startswith(("test", *AT_THE_EDGE)):
                with self.subTest(name):
                    code = re.sub(r"//.*", "", path.read_text())
                    self.assertIsNone(OF_THE_SYSTEM.search(code))

    def test_the_page_of_each_crate_says_what_is_proved(self):
        for page in ROOT.glob("crates/*/README.md"):
            crate = page.parent.name
            if not crate.startswith("test"):
                with self.subTest(crate):
                    self.assertRegex(page.read_text(), rf"\A# `{crate}`: .*\n(.*\n)*\n## (Proved|What is proved)\b")

    def test_the_lines_of_what_is_trusted_are_counted(self):
        parts = PART.findall(TRUSTED.read_text())
        scripts = [path.name for path in TRUSTED.parent.glob("*.js")]
        others = ["../tools/prove.py", "build.py", "heap.c", "retarget.py", "scripts.py"]
        self.assertEqual(sorted([*scripts, *others]), sorted(name for name, _ in parts))
        for name, lines in parts:
            with self.subTest(name):
                text = (TRUSTED.parent / name).read_text()
                self.assertEqual(int(lines), len(text.splitlines()))


if __name__ == "__main__":
    unittest.main()
