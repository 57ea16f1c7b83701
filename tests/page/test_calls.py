"""The calls of the page give the program's answers: its module and scripts, taken out of it as they
are, in node. Numbers out of their ranges; changed files beside the program; residuals beside those
of accepted sheets in exact fractions; each of the first allocations refused; a sample by the module
with 64-bit memory too, where node has that."""

import csv
import fcntl
import hashlib
import io
import math
import os
import random
import re
import shutil
import signal
import subprocess
import sys
import tempfile
import unittest
from collections import defaultdict
from fractions import Fraction
from pathlib import Path

import model
import records
from in_parts import parts_of, printed_of
from kinds import refusal_in, without_hint
from program import EXAMPLE, PROGRAM, ROOT, SWEEP, TimedTest, answer_to, side_by_side
from rows import answer_of_residuals, as_call, residuals_in

sys.path[:0] = [str(ROOT / name) for name in ("conformance", "page")]
import build  # noqa: E402
import run  # noqa: E402

PAGE = ROOT / "build" / "station_check.html"

# The module with 64-bit memory, the one with 32-bit memory that is made of it, and the bytes that the
# page has at most with that.
MODULE, LOWERED = build.ROOM / "page.wasm", build.ROOM / "page32.wasm"

# So many bytes may the page have.
LARGEST_PAGE = 400_000

COMMAND_LINE = Path(__file__).with_name("program.mjs")
EXAMPLES = [ROOT / "examples" / f"station_p7{end}" for end in (".gsi", ".csv", "_directions.csv")]
JOB = ROOT / "examples" / "job.gsi"

# A case of a table that is read by a pair of its columns, so that its answer has a note.
OF_COLUMNS = ROOT / "conformance" / "answered" / "compare" / "compare_of_a_table_of_bars"

RT = os.environ.get("RT", "rt")

# Half units of a full circle, and units of 0.001 mgon in one.
TURN, HALF_UNIT = 80_000_000, 5

# What runs the scripts. In one thread: one run of thousands had no end within a minute, and why was
# not seen; a thread that compiles the module is what may have held it up.
NODE = ["node", "--no-warnings", "--single-threaded"]

# The smallest module whose memory has addresses of 64 bits.
PROBE = "new WebAssembly.Module(new Uint8Array([0,97,115,109,1,0,0,0,5,3,1,4,1]))"
FLAGS = [[], ["--experimental-wasm-memory64"]]

# The calls that hand out a note beside their text.
NOTED = {"mark", "mark-rows", "compare", "differences"}

# What a call answers that has too little room, and hands out nothing; and one that is refused memory.
NO_ROOM = (3, b"", b"")
NO_MEMORY = (1, b"", b"refused: out of memory\n")

# Bytes in the place of a refusal, and what is said of them: a byte that begins no letter, a letter that
# is cut, one in more bytes than it needs, half of a pair, one above the last, and a name before such
# bytes; then texts, which name no fault.
NO_TEXTS = [
    (b"\xff", "not UTF-8"),
    (b"\xc3", "not UTF-8"),
    (b"\xc0\x80", "not UTF-8"),
    (b"\xed\xa0\x80", "not UTF-8"),
    (b"\xf4\x90\x80\x80", "not UTF-8"),
    (b"refused: kernel: TwoC 2\xfe", "not UTF-8"),
    ("Zwölf".encode(), "no such fault"),
    ("\U0010ffff".encode(), "no such fault"),
    (b"\0", "no such fault"),
]

# Tables of station S1 of the example, each with its unit and the columns that are stated: gon, degrees
# and D.MMSS, by two columns, by a pair that is found or stated, near the directions and apart from
# them; then some that are refused, one of them only where no columns are stated.
TABLES = [
    ("gon", None, b"A;0\nB;50.00003\n"),
    ("degrees", None, b"A;0-00-00\nB;45-00-00.1\n"),
    ("degrees", None, "A;0\u00b0 00\u2032 00\u2033\nB;45\u00b0 00\u2032 00.1\u2033\n".encode()),
    ("dmmss", None, b"A;0.0000\nB;45.00001\n"),
    ("gon", None, b"1;A;0\n2;B;50.00003\n"),
    ("gon", None, b"Job 7\n1;A;0\n\n2;B;50.0010 gon\nsum;;50.0010\n"),
    ("degrees", None, b"1;A;0-00-00\n2;B;45-00-00.1\n"),
    ("degrees", (2, 3), b"1;A;0-00-00\n2;B;45-00-01\n"),
    ("dmmss", (3, 1), b"0.0000;1;A\n45.00001;2;B\n"),
    ("gon", (3, 1), b"0;1;A\n50.00003;2;B\n"),
    ("gon", (1, 3), b"A;1;0\nB;2;50.00003\n"),
    ("gon", None, b"A;1;0\nB;2;50.00003\n"),
    ("gon", (999_999, 1), b"A;0\nB;50.00003\n"),
    ("gon", (1, 999_999), b"A;0\nB;50.00003\n"),
    ("gon", None, b"A;0-00-00\nB;45-00-00.1\n"),
]

# How no table can be read: by a unit that there is not, and by columns of which one is not stated, or
# is beyond the largest, or by both; or that are one.
BEYOND_FORMS = [
    ["--unit=3"],
    ["--unit=4294967295"],
    ["--columns=0,1"],
    ["--columns=1,0"],
    ["--columns=2,2"],
    ["--columns=1000000,1"],
    ["--columns=1,1000000"],
    ["--columns=4294967295,4294967295"],
]

# Lengths of files beside the ends of SHA-256's blocks of 64 bytes, of which 9 end a file.
LENGTHS = [0, 1, 54, 55, 56, 63, 64, 65, 118, 119, 120, 128, 1_000_003]

# Names of files: plain ones, one of no ASCII, and ones with bytes that sha256sum escapes.
NAMES = ["p7.gsi", "two  blanks", "Zw\u00f6lf.csv", "\\", "a\\b", "line\nfeed", "\r", "\\\n\r\n"]

# How long the page's build may take, where it proves the crate: in seconds.
TIME_OF_BUILD = 1_200

# The module with 64-bit memory is held to each case of so many.
EACH = 1 if SWEEP else 10

# So many changed files are handed to the page and to the program.
CHANGED = 400 if SWEEP else 40

# So many allocations are refused, each of the first with all that follow it.
REFUSED = 12


# The numbers of a line of a comparison, by the columns of the row of its verdict.
LINES = [
    r"agrees .*: (?P<sets>\d+) sets?, (?P<targets>\d+) targets?, within (?P<apart>\S+) mgon, limit (?P<limit>\S+) mgon, "
    r"greatest residual (?P<greatest>\S+) mgon\n",
    r"refused: compare: (?P<verdict>Apart) (?P<apart>\S+) mgon, limit (?P<limit>\S+) mgon\n",
    r"refused: table (?P<place>row) (?P<first>\d+): (?P<verdict>\w+)\n",
    r"refused: (?P<place>block) (?P<first>\d+): (?P<verdict>\w+).*\n",
    r"refused: table: (?P<verdict>Columns) (?P<first>\d+) (?P<second>\d+)\n",
    r"refused: table: (?P<verdict>Missing) (?P<first>\d+)\n",
    r"refused: adjust: (?P<verdict>Residual) (?P<first>\d+)\n",
    r"refused: (?:\w+: )?(?P<verdict>[\w ]+)\n",
]
OF_FAULT = {"Columns": "columns", "Missing": "target", "Residual": "observation"}
TITLES = ["verdict", "sets", "targets", "apart", "limit", "greatest", "place", "first", "second"]
OF_DISTANCE = ["apart", "limit", "greatest"]


def row_in(line):
    """The row of the verdict that a line of a comparison says, with distances in units of 0.001 mgon."""
    found = next(found for pattern in LINES if (found := re.fullmatch(pattern, line)))
    row = {title: "" for title in TITLES} | {"verdict": "agrees"} | found.groupdict()
    row["place"] = row["place"] or OF_FAULT.get(row["verdict"], "")
    return row | {title: row[title] and str(int(1000 * Fraction(row[title]))) for title in OF_DISTANCE}


def is_lowered():
    """Whether the page that was made has a module with 32-bit memory."""
    return LOWERED.exists()


def node_of_64_bits():
    """The command of a node that takes a module with 64-bit memory; none where there is none."""
    commands = [[*NODE, *flags] for flags in FLAGS]
    ran = (subprocess.run([*words, "-e", PROBE], capture_output=True) for words in commands)
    return next((words for words, one in zip(commands, ran) if one.returncode == 0), None)


def node():
    """The command of a node that takes the page's module; none where there is none."""
    if not shutil.which("node"):
        return None
    return NODE if is_lowered() else node_of_64_bits()


# What the program alone can be told: flags, and the beginnings of options with a text.
OF_PROGRAM = "--csv", "--json", "--all", "--signature", "--sha256", "--pages"
NAMED_BY_PROGRAM = "--table", "--note", "--date"

# A word of what a field file recorded of instrument and time, which a report of the program has.
RECORDED = re.compile(rb"[ *]1[23789]\.\.\.\.")

# The commands of a station, whose name a call is always told.
OF_STATIONS = {"compare", "differences", "directions", "means", "report", "residuals"}


def is_nameless(case):
    """Whether a command of a station is told none: behind the field file stand files and options alone."""
    if not OF_STATIONS.intersection(case.args[:1]):
        return False
    first = next((place for place, word in enumerate(case.args) if (case.folder / word).is_file()), 0)
    return all("." in word or word.startswith("--") for word in case.args[first + 1 :])


def is_of_page(case):
    """Whether the files of a case can be handed in: they are there, and none is a folder. What the
    program notes beside an empty list is its own, and so are rows, digests, all stations at once, a
    station that is left out, reports with a table, with notes, in pages or with what the file
    recorded, how changes of lines are stated and told, limits in mgon, and a limit of residuals but
    of a sheet."""
    paths = [case.folder / word for word in case.args if "." in word]
    is_recorded = case.args[:1] == ["report"] and any(
        path.is_file() and RECORDED.search(path.read_bytes()) for path in paths
    )
    is_noted = case.args[:1] == ["list"] and case.expected[0] == 0 and case.expected[2]
    is_stated = any(word in OF_PROGRAM or word.startswith(NAMED_BY_PROGRAM) for word in case.args)
    is_held = case.args[:1] != ["check"] and any(word.startswith("--residual") for word in case.args)
    is_own = is_noted or is_stated or is_held or any(word.endswith("mgon") for word in case.args)
    is_own = is_own or case.args[:1] == ["change"] or is_nameless(case) or is_recorded
    return not is_own and case.expected[0] < 2 and all(path.is_file() for path in paths)


PLACE_TITLES = "what,number,row,first,end,meant_first,meant_end\n"

# What a refusal names, by the words before its number; and what has none, which is the first.
NAMED = {
    "block": r"block (\d+): ",
    "sheet row": r"sheet row (\d+): |(no station)",
    "table row": r"table row (\d+): ",
    "target": r"kernel: Target(?:Row|Sum) (\d+)|kernel: (Datum)",
    "set": r"kernel: Set(?:Row|Sum) (\d+)",
    "observation": r"kernel: (?:ObsRow|Residual) (\d+)",
    "station target": r"table: Missing (\d+)",
    "station observation": r"adjust: Residual (\d+)",
}
KINDS = {"target": b"target", "set": b"set", "observation": b"obs"}


# The indices of words, and the faults that speak of the first word of one in their block.
WORDS = {
    b"11": "TooManyTargets|ReadTwice|FaceMissing|Order|EndsElsewhere|PairAfter|OtherTargets|SightsItself",
    b"21": "WordTwice 21|Hz |FaceTwice|TwoC",
    b"22": "WordTwice 22|Zenith |FaceUnclear|FirstFace|TwoI",
    b"42": "WordTwice 42|SetNumber|StationTwice|SetTwice",
}


def meant_in(line, block):
    """The part of a block that the line of its refusal speaks of, or all of it."""
    fault = re.sub(r"^refused: block \d+: (mark: )?", "", line)
    content, begin = (16, 1) if block.startswith(b"*") else (8, 0)
    begins = range(begin, len(block), 7 + content + 1)
    what, _, number = fault.partition(" ")
    if what == "Byte" and int(number) <= len(block):
        return int(number) - 1, int(number)
    if what in ("Word", "FirstWord") and int(number or 1) <= len(begins):
        first = begins[int(number or 1) - 1]
        return first, first + 1 + len(block[first + 1 :].split(b" ")[0])
    for index, faults in WORDS.items():
        found = [at for at in begins if block[at:].startswith(index) and at + 7 + content <= len(block)]
        if re.match(faults, fault) and found:
            return found[0], found[0] + 7 + content
    return 0, len(block)


def parts_with(data, is_one):
    """Where the parts between line ends stand that are meant."""
    found = [match.span() for match in re.finditer(rb"[^\r\n]*", data)]
    return [span for span in dict.fromkeys(found) if is_one(data[slice(*span)])]


def place_of(line, gsi, other):
    """The row of the place of a refusal, where no field of the other file is in quotes."""
    titles = PLACE_TITLES
    for what, words in NAMED.items():
        if not (match := re.match("refused: (?:" + words + ")", line)):
            continue
        number = int(match[1] or 1)
        rows = [(nth + 1, *span) for nth, span in enumerate(parts_with(other, len))]
        if what in KINDS:
            rows = [row for row in rows if other[row[1] :].startswith(KINDS[what] + b",")]
        elif what == "block":
            rows = [("", *span) for span in parts_with(gsi, lambda part: part.strip(b" "))]
        else:
            rows = [("", first, end) for _, first, end in rows if "row" in what]
        row = rows[number - 1] if 0 < number <= len(rows) else ("", "", "")
        meant = row[1:]
        if what == "block" and row[1] != "":
            meant = [row[1] + place for place in meant_in(line, gsi[row[1] : row[2]])]
        return titles + ",".join(map(str, [what, number, *row, *meant])) + "\n"
    return titles


def cases_of_page():
    """The cases whose files can be handed in."""
    return [case for case in map(as_call, run.cases()) if is_of_page(case)]


def sheet_residuals(path):
    """The residuals of a sheet, by set and target, in units of 0.001 mgon, the middle of two upwards."""
    with open(path, encoding="utf-8", newline="") as file:
        rows = [row for row in csv.reader(file) if row]
    denominator = int(rows[0][3])
    directions = {row[2]: int(row[3]) for row in rows if row[0] == "target"}
    orientations = {row[1]: int(row[3]) for row in rows if row[0] == "set"}
    exact = {
        (number, target): Fraction(directions[target] - orientations[number], denominator)
        - (int(value) + TURN * int(turns))
        for kind, number, target, value, turns in rows
        if kind == "obs"
    }
    return {place: math.floor(HALF_UNIT * residual + Fraction(1, 2)) for place, residual in exact.items()}


def changed(data, chance):
    """A file with a byte of it changed, mostly to another that a file has; now and then it is whole."""
    if chance.random() < 0.3:
        return data
    at = chance.randrange(len(data))
    return data[:at] + bytes([chance.choice(data + b"\t\xff")]) + data[at + 1 :]


def make_page():
    """Makes the page, where it is not up to date; the tests run side by side, and one of them makes it."""
    PAGE.parent.mkdir(exist_ok=True)
    with open(PAGE.with_suffix(".lock"), "w", encoding="utf-8") as lock:
        fcntl.flock(lock, fcntl.LOCK_EX)
        make = ["make", "-s", f"RT={RT}", "page"]
        how = {"cwd": ROOT, "stdout": subprocess.PIPE, "stderr": subprocess.STDOUT, "start_new_session": True}
        with subprocess.Popen(make, text=True, **how) as making:
            try:
                said, _ = making.communicate(timeout=TIME_OF_BUILD)
            except subprocess.TimeoutExpired:
                os.killpg(making.pid, signal.SIGKILL)
                raise
    if making.returncode:
        raise RuntimeError(f"the page can't be made: {said}")


def with_ends(data, chance):
    """A file whose lines end in other ways, with a blank line here and there, and the last in none."""
    lines = data.splitlines()
    ends = [chance.choice([b"\r\n", b"\n", b"\r", b"\n \n"]) for _ in lines]
    ends[-1] = chance.choice([b"", ends[-1]])
    return b"".join(line + end for line, end in zip(lines, ends))


def changes_of(data, chance):
    """A few changes, mostly of lines that are there, in order, with names that they may have."""
    count = len(data.split()) // 4 + 2
    numbers = sorted(chance.sample(range(1, count + 2), min(count, chance.randint(0, 4))))
    if chance.random() < 0.1:
        chance.shuffle(numbers)
    if chance.random() < 0.1:
        numbers.append(numbers[-1] if numbers else 0)
    names = [None, None, b"P7", b"TOWER", b"CHURCH 2", b"0", b"07", b"123456789", b"A=B"]
    return [(number, chance.choice(names)) for number in numbers]


def counted(number, thing):
    return f"{number} {thing}" if number == 1 else f"{number} {thing}s"


def left_outside(number):
    return f"{counted(number, 'reading')} {'stays' if number == 1 else 'stay'} outside"


def notes_of(told):
    """The notes of a station, by what its rows tell: two numbers and two names of each thing."""
    [(written_again, is_again, *_)] = told["set-up"]
    [(sets, targets, *_)], [(before, after, *_)] = told["sets"], told["outside"]
    if is_again:
        yield "set up again"
    if told["fault"]:
        [(block, _, fault, _)] = told["fault"]
        leads_on = model.LEADS_ON[fault].decode()
        yield f"not recognized, block {block}: {fault}; {left_outside(before)}: {leads_on}"
    elif sets:
        [(_, _, opening, turning)] = told["ends"]
        ends = f"{counted(sets, 'set')}, {counted(targets, 'target')}, from {opening} to {turning}"
        yield f"{ends}; {counted(before, 'reading')} before them and {after} after stay outside"
    else:
        yield f"no sets; {left_outside(before)}" if before else "no readings"
    for missing, full, *_ in told["missing"]:
        if missing:
            yield f"{missing} of {counted(full, 'direction')} {'is' if missing == 1 else 'are'} missing"
    for others, is_opened_again, *_ in told["after"]:
        if others:
            yield f"{counted(others, 'target')} after the sets in both faces: of another station?"
        if is_opened_again:
            yield f"{opening} is read again after the sets: is a reading of theirs missing?"
    for earlier, later, *_ in told["equal"]:
        yield f"sets {earlier} and {later} are the same to the last digit"
    for mgon, _, target, _ in told["zeniths"]:
        yield f"the zenith angles of {target} differ by {mgon} mgon"
    if written_again:
        yield f"set-up line written again {counted(written_again, 'time')}, taken as the same set-up"


def notes_in(rows):
    """The lines that rows tell of stations: of each first the row of its set-up."""
    stations = []
    for row in csv.DictReader(io.StringIO(rows.decode(), newline="")):
        if row["told"] == "set-up":
            stations.append((row["station"], defaultdict(list)))
        name, told = stations[-1]
        told[row["told"]].append((int(row["first"]), int(row["second"]), row["name"], row["other"]))
        assert name == row["station"]
    return "".join(f"note: station {name}: {note}\n" for name, told in stations for note in notes_of(told)).encode()


class PageCallsTest(TimedTest):
    maxDiff = None

    @classmethod
    def setUpClass(cls):
        super().setUpClass()
        if not shutil.which(RT):
            raise unittest.SkipTest("the toolchain that makes the page is missing")
        make_page()
        cls.node = node()
        if not cls.node:
            raise unittest.SkipTest("no node is found that runs the page's module")

    def command(self, page=PAGE):
        return [*self.node, str(COMMAND_LINE), str(page)]

    def other_page(self, name, module):
        """A page like this one around another module."""
        page = build.ROOM / name
        page.write_text(build.page(module.read_bytes()))
        return page

    def test_the_calls_answer_as_each_case_says(self):
        cases = cases_of_page()
        self.assertGreater(len(cases), 230)
        self.assertIn("residuals", {case.args[0] for case in cases if case.expected[0] == 0 and case.args})
        answers = side_by_side(lambda case: run.answer(self.command(), case), cases)
        for case, answer in zip(cases, answers):
            with self.subTest(case.name):
                self.assertEqual(without_hint(case.expected), answer)

    def test_the_rows_of_a_job_without_codes_tell_what_its_notes_say(self):
        """And the copy and the line of a refusal are the same."""
        cases = [case for case in cases_of_page() if case.args[:1] == ["mark"]]
        self.assertGreater(len(cases), 60)
        asked = [case._replace(args=["mark-rows", *case.args[1:]]) for case in cases]
        answers = side_by_side(lambda case: run.answer(self.command(), case), asked)
        for case, (answered, text, rows) in zip(cases, answers):
            with self.subTest(case.name):
                status, out, said = without_hint(case.expected)
                self.assertEqual(status, answered)
                last = b"note: compare this with the field book\n" if status == 0 else text
                self.assertEqual((out, said), (text if status == 0 else b"", notes_in(rows) + last))

    def test_rows_with_commas_are_those_of_the_report(self):
        """With semicolons between their cells, and with commas in their numbers."""
        gsi, name = str(EXAMPLES[0]), "P7"
        status, text, _ = answer_to([*self.command(), "station", gsi, name])
        titles, *rows = csv.reader(io.StringIO(dict(parts_of(text))["rows"].decode(), newline=""))
        for row in rows:
            row[3:] = [number.replace(".", ",") for number in row[3:]]
        whole = "".join(";".join(row) + "\n" for row in [titles, *rows]).encode()
        self.assertEqual((0, 0, whole), (status, *answer_to([*self.command(), "comma-rows", gsi, name])[:2]))

    def test_the_module_with_64_bit_memory_answers_as_each_case_says(self):
        if not (is_lowered() and (node := node_of_64_bits())):
            self.skipTest("there is one module, or no node that runs the other")
        command = [*node, str(COMMAND_LINE), str(self.other_page("page64.html", MODULE))]
        for case in cases_of_page()[::EACH]:
            with self.subTest(case.name):
                self.assertEqual(without_hint(case.expected), run.answer(command, case))

    def test_memory_that_is_nearly_used_is_refused_or_enough(self):
        """Of 32 bits: no call goes beyond what they address."""
        if not is_lowered():
            self.skipTest("the module has 64-bit memory")
        words = ["check", *map(str, EXAMPLES[:2])]
        usual = answer_to([*self.command(), *words])
        for pages, expected in [(0, NO_MEMORY), (1, NO_MEMORY), (15, NO_MEMORY), (256, usual)]:
            with self.subTest(pages):
                self.assertEqual(expected, answer_to([*self.command(), f"--left={pages}", *words]))

    def test_the_page_is_small_enough_to_be_sent(self):
        self.assertLess(PAGE.stat().st_size, LARGEST_PAGE)

    def test_a_limit_above_the_largest_has_a_status_of_its_own(self):
        gsi, sheet, table = map(str, EXAMPLES)
        for words in [
            ["check", "--two-c=1000001", gsi, sheet],
            ["check", "--residual=2001", gsi, sheet],
            ["list", "--two-i=1000001", gsi],
            ["list-rows", "--two-c=1000001", gsi],
            ["compare", "--within=1000001", gsi, "P7", table],
            *(
                [command, *stated, gsi, "P7", table]
                for command in ("compare", "differences")
                for stated in BEYOND_FORMS
            ),
            ["directions", "--two-c=1000001", gsi, "P7"],
            ["directions", "--decimals=0", gsi, "P7"],
            ["directions", "--decimals=9", gsi, "P7"],
            ["residuals", "--two-i=1000001", gsi, "P7"],
            ["report", "--two-i=1000001", gsi, "P7"],
            ["station", "--two-i=1000001", gsi, "P7"],
            ["station", "--decimals=9", gsi, "P7"],
            ["differences", "--two-c=1000001", gsi, "P7", table],
            ["mark", "--station=SEVENTEEN LETTERS", gsi],
            ["mark", "--station=P\u00e47", gsi],
            ["mark", "--station-code=20", gsi],
            ["mark", "--sets=41", gsi],
            ["mark", "--sets=three", gsi],
            ["mark", "--sets=3", "--sets=4", gsi],
            ["mark", "--sets=P7=3", "--sets=0P7=3", gsi],
            ["mark", "--sets=SEVENTEEN LETTERS=3", gsi],
            ["mark", "--targets=P7=101", gsi],
            ["mark", "--targets=4294967296", gsi],
            ["mark", "--targets=P\u00e47=3", gsi],
            ["mark-rows", "--station=SEVENTEEN LETTERS", gsi],
            ["mark-rows", "--sets=three", gsi],
            *(["records", table, str(separator)] for separator in (0, ord("."), 0xFFFFFFFF)),
            ["comma-rows", "--two-i=1000001", gsi, "P7"],
            ["directions", "--decimal-comma", "--decimals=9", gsi, "P7"],
            ["differences", "--decimal-comma", "--columns=2,2", gsi, "P7", table],
        ]:
            with self.subTest(words):
                self.assertEqual((2, b"", b""), answer_to([*self.command(), *words]))

    def test_a_table_of_any_form_is_answered_as_by_the_model(self):
        """With its note, which stands before the line of a refusal too."""
        gsi, answered = EXAMPLE.read_bytes(), []
        with tempfile.TemporaryDirectory() as folder:
            path = Path(folder) / "table.csv"
            for unit, columns, table in TABLES:
                path.write_bytes(table)
                words = [] if unit == "gon" else [f"--{unit}"]
                words += [f"--columns={columns[0]},{columns[1]}"] if columns else []
                stated = tuple(b"%d" % column for column in columns) if columns else None
                form = model.TableForm(unit, stated)
                for command, of_model in [("compare", model.compared), ("differences", model.differences)]:
                    expected = without_hint(of_model(gsi, b"S1", table, form=form))
                    answered.append((expected[0], expected[2].startswith(b"note: ")))
                    with self.subTest(command, words=words, table=table):
                        words_of_call = [*self.command(), command, *words, EXAMPLE, "S1", path]
                        self.assertEqual(expected, answer_to(words_of_call))
        self.assertEqual({(0, True), (0, False), (1, True), (1, False)}, set(answered))

    @unittest.skipUnless(PROGRAM.exists(), "the program is not built")
    def test_each_refusal_is_explained_as_by_the_program(self):
        refusals = {refusal_in(case.expected[2]) for case in run.cases() if case.expected[0] == 1}
        self.assertGreater(len(refusals), 80)
        # Names alone, in small letters too, and a second one of a fault.
        lines = [*sorted(refusals), "TwoC", "twoc", "Zenith Unit"]
        answers = side_by_side(lambda line: answer_to([*self.command(), "explanation", line]), lines)
        printed = side_by_side(lambda line: answer_to([PROGRAM, "explain", line]), lines)
        for line, (status, text, said), expected in zip(lines, answers, printed):
            with self.subTest(line):
                parts = dict(parts_of(text))
                self.assertEqual(["names", "meaning", "when", "example", "remedy"], [*parts])
                self.assertEqual(expected, (status, printed_of(parts), said))
                self.assertEqual(0, status)
        self.assertEqual((0, b"", b""), answer_to([*self.command(), "explanation", ""]))

    def test_each_refusal_stands_at_its_line_or_its_row(self):
        named = set()
        for case in cases_of_page():
            paths = [case.folder / word for word in case.args if "." in word]
            if case.expected[0] != 1 or not paths:
                continue
            gsi, *others = paths
            line, other = refusal_in(case.expected[2]), others[0].read_bytes() if others else b""
            if b'"' in other or other.startswith(b"\xef\xbb\xbf"):
                continue
            with self.subTest(case.name):
                expected = place_of(line, gsi.read_bytes(), other)
                status, text, _ = answer_to([*self.command(), "place", line, *paths[:2]])
                self.assertEqual((0, expected), (status, text.decode()))
            named.add(expected.splitlines()[-1].partition(",")[0])
        self.assertLessEqual({"block", "sheet row", "table row", *KINDS}, named)

    def test_the_place_of_a_row_with_quotes_and_a_byte_order_mark(self):
        sheet = b'\xef\xbb\xbf"sheet",1,S1,2\r\n\r\n"tar""get",,A,0\n"target",,"B\n",0\ntarget,,C,0'
        table = b'A;"1\n";0\nB;2\n'
        rows = {
            "refused: sheet row 1: Version": "sheet row,1,,3,17,3,17",
            "refused: sheet row 3: Number": "sheet row,3,,37,53,37,53",
            "refused: kernel: TargetRow 2": "target,2,4,54,65,54,65",
            "refused: kernel: TargetRow 3": "target,3,,,,,",
            "refused: kernel: Datum": "target,1,3,37,53,37,53",
        }
        with tempfile.TemporaryDirectory() as folder:
            path = Path(folder) / "sheet.csv"
            path.write_bytes(sheet)
            for line, row in rows.items():
                with self.subTest(line):
                    answer = answer_to([*self.command(), "place", line, EXAMPLES[0], path])
                    self.assertEqual(f"{PLACE_TITLES}{row}\n".encode(), answer[1])
            # (by semicolons row 2 begins after the quotes, by commas within them)
            path.write_bytes(table)
            answer = answer_to([*self.command(), "place", "refused: table row 2: Form", EXAMPLES[0], path])
            self.assertEqual(f"{PLACE_TITLES}table row,2,,,,,\n".encode(), answer[1])

    def test_the_part_of_a_block_that_a_refusal_speaks_of(self):
        """By its form, by its number or by its index, in lines of both widths; or else all of it."""
        wide = b"*110001+000000000000PIN1 21.322+0000000012345678 22.322+0000000010000000"
        lines = [b"110001+PIN 0001 21.322+12345678 22.322+10000000", wide, b"", b"410003+00000020 42....+0000001x"]
        rows = {
            "block 1: Byte 16": (15, 16),
            "block 1: Byte 48": (0, 47),
            "block 1: Word 1": (0, 10),
            "block 1: Word 2": (16, 31),
            "block 1: Word 4": (0, 47),
            "block 2: Word 3": (49, 72),
            "block 2: FirstWord": (1, 24),
            "block 1: mark: ReadTwice": (0, 15),
            "block 2: Hz Digits": (25, 48),
            "block 2: Zenith Sign": (49, 72),
            "block 2: WordTwice 42": (0, 72),
            "block 3: SetNumber": (16, 31),
            "block 3: OneFace": (0, 31),
        }
        first = {"1": 0, "2": len(lines[0]) + 1, "3": len(b"\n".join(lines[:3])) + 1}
        whole = {"1": len(lines[0]), "2": len(wide), "3": len(lines[3])}
        with tempfile.TemporaryDirectory() as folder:
            path = Path(folder) / "field.gsi"
            path.write_bytes(b"\n".join(lines))
            for fault, meant in rows.items():
                number = fault[6]
                at = first[number]
                places = [at, at + whole[number], at + meant[0], at + meant[1]]
                with self.subTest(fault):
                    answer = answer_to([*self.command(), "place", f"refused: {fault}", path])
                    row = ",".join(map(str, ["block", number, "", *places]))
                    self.assertEqual(f"{PLACE_TITLES}{row}\n".encode(), answer[1])

    def test_what_was_recorded_is_told_in_each_language(self):
        reports = ROOT / "conformance" / "answered" / "report"
        for number, name in enumerate([
            "report_with_instrument_and_time",
            "report_in_german_with_instrument_and_time",
            "report_of_all_stations_in_french_with_two_instruments",
        ]):
            with self.subTest(name):
                printed = (reports / name / "stdout").read_bytes().splitlines(keepends=True)
                expected = [*dict.fromkeys(line for line in printed if re.match(rb"  1[2-9] ", line))]
                answer = answer_to([*self.command(), "instrument", reports / name / "field.gsi", str(number)])
                self.assertEqual((0, b"".join(expected), b""), answer)
        self.assertEqual((2, b"", b""), answer_to([*self.command(), "instrument", EXAMPLES[0], "3"]))

    def test_a_text_without_the_name_of_a_fault_is_refused(self):
        for line in ["refused: kernel: Elephant 2", " ", "TwoC\n"]:
            with self.subTest(line):
                answer = answer_to([*self.command(), "explanation", line])
                self.assertEqual((1, b"", b"refused: no such fault\n"), answer)

    def test_bytes_that_are_no_text_are_refused(self):
        with tempfile.TemporaryDirectory() as folder:
            path = Path(folder) / "line"
            for line, refusal in NO_TEXTS:
                path.write_bytes(line)
                with self.subTest(line):
                    answer = answer_to([*self.command(), "explanation-bytes", path])
                    self.assertEqual((1, b"", f"refused: {refusal}\n".encode()), answer)

    def test_a_text_is_handed_out_whole_or_its_lack_of_room_is_the_status(self):
        (gsi, sheet, table), job = map(str, EXAMPLES), str(JOB)
        noted = [str(OF_COLUMNS / "field.gsi"), "S1", str(OF_COLUMNS / "table.csv")]
        for words in [
            ["check", gsi, sheet],
            ["list", gsi],
            ["list-rows", gsi],
            ["means", EXAMPLE, "S1"],
            ["words", gsi],
            ["directions", gsi, "P7"],
            ["residuals", gsi, "P7"],
            ["report", gsi, "P7"],
            ["station", gsi, "P7"],
            ["compare", gsi, "P7", table],
            ["differences", gsi, "P7", table],
            ["compare", *noted],
            ["differences", *noted],
            ["explanation", "TwoC"],
            ["place", "refused: block 2: OneFace", gsi],
            ["mark", job],
            ["mark-rows", job],
            ["comma-rows", gsi, "P7"],
            ["directions", "--decimal-comma", gsi, "P7"],
            ["differences", "--decimal-comma", *noted],
            ["digest", gsi, "two\\lines\n"],
            ["records", table, "44"],
            # The same of a refusal; of words it stands beside the words, of which there are none here.
            ["check", gsi, table],
            ["list", sheet],
            ["list-rows", sheet],
            ["means", gsi, "P7"],
            ["words", sheet],
            ["directions", gsi, "P8"],
            ["residuals", gsi, "P8"],
            ["report", gsi, "P8"],
            ["station", gsi, "P8"],
            ["compare", gsi, "P7", sheet],
            ["differences", gsi, "P7", sheet],
            ["explanation", "Elephant"],
            ["mark", gsi],
            ["mark-rows", gsi],
            ["comma-rows", gsi, "P8"],
        ]:
            usual = answer_to([*self.command(), *words])
            # The copy of a job and its notes have a room each, and so have an answer of a table and its note.
            length = (max if words[0] in NOTED else sum)(map(len, usual[1:]))
            self.assertGreater(length, 0)
            shorter = [text if len(text) < length else b"" for text in usual[1:]]
            short = (NO_ROOM[0], *shorter) if words[0] in NOTED else NO_ROOM
            for room, expected in [(length, usual), (length - 1, short), (0, NO_ROOM)]:
                with self.subTest(words, room=room):
                    answer = answer_to([*self.command(), f"--room={room}", *words])
                    self.assertEqual(expected, answer)

    def test_a_digest_is_the_line_of_sha256sum(self):
        with tempfile.TemporaryDirectory() as folder:
            for nth, length in enumerate(LENGTHS):
                name, data = NAMES[nth % len(NAMES)], random.Random(length).randbytes(length)
                path = Path(folder) / name
                path.write_bytes(data)
                with self.subTest(name, length=length):
                    shown = subprocess.run(["sha256sum", "--", name], cwd=folder, check=True, capture_output=True)
                    self.assertIn(hashlib.sha256(data).hexdigest().encode(), shown.stdout)
                    answer = answer_to([*self.command(), "digest", path, name])
                    self.assertEqual((0, shown.stdout, b""), answer)

    def test_the_records_of_a_text_are_those_of_the_model(self):
        """Of changed sheets and tables too, by each separator that these may have."""
        chance = random.Random(13)
        files = [path.read_bytes() for path in EXAMPLES[1:]]
        texts = [*records.TEXTS, *files, *(changed(with_ends(chance.choice(files), chance), chance) for _ in range(CHANGED))]
        with tempfile.TemporaryDirectory() as folder:
            path = Path(folder) / "table.csv"
            for text in texts:
                path.write_bytes(text)
                for separator in records.SEPARATORS:
                    expected = records.handed_out(model.records_of(text, bytes([separator])))
                    with self.subTest(text, separator=separator):
                        answer = answer_to([*self.command(), "records", path, str(separator)])
                        self.assertEqual((0, expected, b""), answer)

    def test_a_copy_with_changed_lines_is_that_of_the_model(self):
        chance = random.Random(11)
        files = [path.read_bytes() for path in [EXAMPLES[0], JOB]]
        with tempfile.TemporaryDirectory() as folder:
            path = Path(folder) / "job.gsi"
            for nth in range(CHANGED):
                data = changed(with_ends(chance.choice(files), chance), chance)
                path.write_bytes(data)
                changes = changes_of(data, chance)
                said = [f"{number}" + (f"={name.decode()}" if name is not None else "") for number, name in changes]
                try:
                    expected = 0, model.changed_copy(data, changes), b""
                except model.Refusal as refusal:
                    expected = 1, b"", f"refused: {refusal}\n".encode()
                with self.subTest(nth, said=said):
                    self.assertEqual(expected, answer_to([*self.command(), "change", path, *said]))

    def test_what_is_no_change_has_a_status_of_its_own(self):
        none = ["x", "1=", "4294967296", "00000000001", "1=\x7f", "-1", "1 ", "1=12345678901234567"]
        for said in [*none, "=P7", "1\n", "1=P7\n\n2"]:
            with self.subTest(said):
                self.assertEqual((2, b"", b""), answer_to([*self.command(), "change", JOB, said]))
        # No file has a line 0.
        for said in ["0", "0=P7", "1=P7\n0"]:
            with self.subTest(said):
                expected = 1, b"", b"refused: block 0: change: LineOrder\n"
                self.assertEqual(expected, answer_to([*self.command(), "change", JOB, said]))

    def test_the_residuals_of_a_station_are_those_of_its_accepted_sheet(self):
        """Of a sheet that is accepted with the limit of residuals that the page states."""
        checks = [case for case in run.cases() if case.args[:1] == ["check"] and len(case.args) == 3]
        pairs = [[case.folder / word for word in case.args[1:]] for case in checks if case.expected[0] == 0]
        stated = [*self.command(), "check", "--residual=2000"]
        accepted = [pair for pair in [EXAMPLES[:2], *pairs] if answer_to([*stated, *pair])[0] == 0]
        self.assertGreater(len(accepted), 15)
        for gsi, sheet in accepted:
            station = next(csv.reader(io.StringIO(sheet.read_text())))[2]
            status, shown, _ = answer_to([*self.command(), "residuals", gsi, station])
            rows = csv.DictReader(io.StringIO(shown.decode()))
            ours = {(row["set"], row["target"]): int(1000 * Fraction(row["residual"])) for row in rows}
            with self.subTest(sheet):
                self.assertEqual((0, sheet_residuals(sheet)), (status, ours))

    def test_a_list_of_rows_is_that_of_each_case_with_the_number_of_its_note(self):
        cases = [case for case in run.cases() if case.args[:1] == ["list"] and "--csv" in case.args]
        self.assertEqual({0, 1}, {case.expected[0] for case in cases})
        for case in cases:
            field = next(word for word in case.args if "." in word)
            status, rows, said = answer_to([*self.command(), "list-rows", case.folder / field])
            with self.subTest(case.name):
                if status:
                    self.assertEqual(case.expected, (status, rows, said))
                    continue
                parts, unchecked = dict(parts_of(rows)), re.findall(rb"\d+", case.expected[2])[:1] or [b"0"]
                self.assertEqual({"rows": case.expected[1], "unchecked": unchecked[0] + b"\n"}, parts)

    def test_all_of_a_station_has_the_texts_that_are_handed_out_alone(self):
        """Of each station of a case; at a refusal it has the line of that."""
        numbers = rb"\nSum of squares \[vv\] +(\S+) mgon\^2\nStandard deviation +(\S+) mgon, of one.*"
        numbers += rb"\nStandard deviation +(?:(\S+) mgon, of each|left out)"
        accuracy = re.compile(rb"\nDegrees of freedom +(\d+)(?:" + numbers + rb"|: )")
        asked = {(case.folder / case.args[-2], case.args[-1]) for case in cases_of_page() if case.args[:1] == ["report"]}
        foot = rb"\n  Mean +(\S+) +(\S+)\n  Half of the mean.*? +(\S+) +(\S+)\n  Spread.*? +(\S+) +(\S+)\n"
        found = set()
        for gsi, name in sorted(asked):
            answers = [answer_to([*self.command(), word, gsi, name]) for word in ("directions", "residuals", "report")]
            status, whole, said = answer_to([*self.command(), "station", gsi, name])
            found.add(status)
            with self.subTest(gsi, name=name):
                if status:
                    self.assertEqual([(status, whole, said)] * 3, answers)
                    continue
                (_, directions, _), (_, residuals, _), (_, report, _) = answers
                parts = dict(parts_of(whole))
                self.assertEqual(["directions", "rows", "accuracy", "faces", "report"], list(parts))
                self.assertEqual(directions, parts["directions"])
                self.assertEqual(residuals, residuals_in(parts["rows"]))
                self.assertEqual(report, parts["report"])
                degrees, squares, *deviations = accuracy.search(report).groups(b"")
                row = b",".join([degrees, *deviations, squares])
                self.assertEqual(b"degrees,deviation,of adjusted,squares\n%s\n" % row, parts["accuracy"])
                numbers = re.search(foot, report).groups()
                rows = [[title, *numbers[nth::2]] for nth, title in enumerate([b"2c", b"2i"])]
                rows = [[b"difference", b"mean", b"half of mean", b"spread"], *rows]
                self.assertEqual(b"".join(b",".join(row) + b"\n" for row in rows), parts["faces"])
        self.assertEqual({0, 1}, found)

    def test_all_of_a_table_has_the_texts_that_are_handed_out_alone(self):
        """Of each case of a comparison, but where its titles are refused; the row of the verdict has
        what its line says, and that of the columns what the note says."""
        cases = [case for case in cases_of_page() if case.args[:1] == ["compare"]]
        cases = [case for case in cases if b"Title" not in case.expected[2]]
        found, rows = set(), set()
        for case in cases:
            command, *words = case.args
            words = [case.folder / word if (case.folder / word).is_file() else word for word in words]
            compared, (_, differences, _) = (
                answer_to([*self.command(), one, *words]) for one in (command, "differences")
            )
            status, whole, note = answer_to([*self.command(), "table", *words])
            with self.subTest(case.name):
                parts = dict(parts_of(whole))
                line = parts["line"]
                self.assertEqual(compared, (status, b"", note + line) if status else (status, line, note))
                [row] = csv.DictReader(io.StringIO(parts["verdict"].decode()))
                found.add(row["verdict"])
                self.assertEqual(row_in(line.decode()), row)
                if "differences" in parts:
                    self.assertEqual(["line", "verdict", "columns", "differences", "report"], [*parts])
                    rows.add(parts["columns"].count(b"\n"))
                    self.assertEqual(model.columns_rows(note), parts["columns"])
                    self.assertEqual(differences, parts["differences"])
                    self.assertIn(b"\nComparison            ", parts["report"])
        self.assertLessEqual({"agrees", "Apart", "Columns", "Missing", "Residual"}, found)
        self.assertEqual({1, 2}, rows)

    @unittest.skipUnless(PROGRAM.exists(), "the program is not built")
    def test_changed_files_have_the_answers_of_the_program(self):
        chance = random.Random(7)
        with tempfile.TemporaryDirectory() as folder:
            examples = [*EXAMPLES, JOB]
            paths = [Path(folder) / path.name for path in examples]
            gsi, sheet, table, job = map(str, paths)
            for nth in range(CHANGED):
                for path, example in zip(paths, examples):
                    path.write_bytes(changed(example.read_bytes(), chance))
                words = chance.choice(
                    [
                        ["check", gsi, sheet],
                        ["list", gsi],
                        ["means", gsi, "P7"],
                        ["directions", gsi, "P7"],
                        ["residuals", gsi, "P7"],
                        ["compare", gsi, "P7", table],
                        ["mark", job],
                    ]
                )
                is_residuals = words[0] == "residuals"
                with self.subTest(nth, words=words):
                    of_program = answer_of_residuals(*words[1:]) if is_residuals else answer_to([PROGRAM, *words])
                    self.assertEqual(of_program, answer_to([*self.command(), *words]))

    def page_with_heap(self, name, *options):
        """The page of this name around the module with the heap that is compiled with these options."""
        kit, wasm, module = build.prove.kit_of(RT), build.ROOM / f"{name}.wasm", build.ROOM / f"{name}32.wasm"
        room = build.ROOM / name
        room.mkdir(exist_ok=True)
        build.linked(kit, build.ROOM / "page.o", wasm, room, *options)
        return self.other_page(f"{name}.html", build.lowered(wasm, module) if is_lowered() else wasm)

    def test_a_request_above_what_32_bits_address_is_refused(self):
        words = ["check", *map(str, EXAMPLES[:2])]
        self.assertEqual(0, answer_to([*self.command(self.page_with_heap("large")), *words])[0])
        for least in (2**32 - 2**16, 2**32 - 1, 2**32, 2**33 + 1, 2**40 - 1, 2**40, 2**63):
            with self.subTest(least):
                page = self.page_with_heap("large", f"-DAT_LEAST={least}ull")
                self.assertEqual(NO_MEMORY, answer_to([*self.command(page), *words]))

    def test_a_refused_allocation_is_answered(self):
        commands = [["check", *EXAMPLES[:2]], ["residuals", EXAMPLE, "S1"], ["explanation", "TwoC"]]
        usual = [answer_to([*self.command(), *words]) for words in commands]
        # A digest takes no memory.
        digest, line = ["digest", str(JOB), "job"], f"{hashlib.sha256(JOB.read_bytes()).hexdigest()}  job\n"
        for count in range(REFUSED):
            page = self.page_with_heap("refused", f"-DREFUSED_AFTER={count}")
            self.assertEqual((0, line.encode(), b""), answer_to([*self.command(page), *digest]))
            for words, whole in zip(commands, usual):
                with self.subTest(count, words=words):
                    answer = answer_to([*self.command(page), *words])
                    self.assertIn(answer, [NO_MEMORY, whole])
                    self.assertTrue(count > 0 or answer == NO_MEMORY)


if __name__ == "__main__":
    unittest.main()
