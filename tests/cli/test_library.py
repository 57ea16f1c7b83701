"""The shared library, from Python and from C, gives the program's answers and shows its calls alone:
the cases of conformance/; residuals beside the rows of reports; rows as numbers; room that grows; files
that are other buffers than bytes; what is out of its range, and what a mistake is told; calls on several
threads; the program of its page; the C example, by pkg-config too, and the header as C++; memory that is
given back. Each export takes and says what its call does."""

import csv
import hashlib
import importlib.util
import inspect
import io
import os
import pickle
import re
import shutil
import subprocess
import sys
import unittest
from concurrent.futures import ThreadPoolExecutor
from decimal import Decimal
from pathlib import Path
from random import Random
from typing import Any, Callable, Iterable, NamedTuple

import model
from generated import SEED, station_to_adjust
from in_parts import parts_of, printed_of
from kinds import refusal_in, without_hint
from program import EXAMPLE, PROGRAM, ROOT, SWEEP, Answer, ProgramTest, answer_of, answer_to
from rows import answer_of_residuals, as_call

sys.path.insert(0, str(ROOT / "conformance"))
import run  # noqa: E402

CAPI = ROOT / "capi"
LIBRARY = ROOT / "build" / "libstation_check.so.1"
HEADER = CAPI / "station_check.h"

GSI, SHEET, TABLE = (ROOT / "examples" / f"station_p7{end}" for end in (".gsi", ".csv", "_directions.csv"))
JOB = ROOT / "examples" / "job.gsi"

ACCEPTED = "accepted P7: 4 sets, 6 targets, 22 directions, greatest residual 85967/1344"

# Of each command the kinds of its operands, in the order in which the module's function takes them.
OPERANDS: dict[str, list[type]] = {
    "check": [bytes, bytes],
    "compare": [bytes, str, bytes],
    "differences": [bytes, str, bytes],
    "directions": [bytes, str],
    "list": [bytes],
    "mark": [bytes],
    "means": [bytes, str],
    "residuals": [bytes, str],
    "words": [bytes],
}

# Commands whose answer is one line, which the module has without its line feed; and those of a table,
# whose answer has a note.
OF_ONE_LINE, OF_TABLES = {"check", "compare"}, {"compare", "differences"}

# Calls that answer several texts.
OF_PARTS = {"list_rows", "mark_rows", "station"}

# The options that the module's functions have, each with its kind; a limit of residuals has one alone.
OPTIONS: dict[str, type] = {
    **{"two-c": int, "two-i": int, "residual": int, "within": int, "decimals": int},
    **{"station": str, "station-code": str},
}

# The options that state how a table is to be read: its unit, and its columns.
UNITS, COLUMNS = ["degrees", "dmmss"], "columns"
OF_SHEETS = "check"

# The options that state a number of each station, or as NAME=N that of one; and the flags.
NUMBERS = {"sets", "targets"}
FLAGS = {"same-set-up", "again", "others", "decimal-comma"}

# What is out of its range: a number that is one too large, is negative, or would be 0 in 32 bits.
BEYOND: list[tuple[str, dict[str, Any]]] = [
    ("check", {"two_c": 1_000_001}),
    ("check", {"two_i": -1}),
    ("check", {"two_c": 1 << 32}),
    ("check", {"residual": 2_001}),
    ("compare", {"within": 1_000_001}),
    ("compare", {"unit": "rad"}),
    ("compare", {"columns": (0, 1)}),
    ("compare", {"columns": (1, 0)}),
    ("compare", {"columns": (2, 2)}),
    ("compare", {"columns": (0, 0)}),
    ("compare", {"columns": (1_000_000, 1)}),
    ("compare", {"columns": (1, 1_000_000)}),
    ("compare", {"columns": (1, -1)}),
    ("compare", {"columns": (1 << 32, 1)}),
    ("differences", {"two_c": 1_000_001}),
    ("differences", {"unit": "Gon"}),
    ("differences", {"columns": (0, 2)}),
    ("differences", {"columns": (1, 1_000_000)}),
    ("directions", {"decimals": 0}),
    ("directions", {"decimals": 9}),
    ("residuals", {"two_i": 1_000_001}),
    ("list_rows", {"two_i": 1_000_001}),
    ("station", {"two_c": 1_000_001}),
    ("station", {"decimals": 0}),
    ("comma_rows", {"two_c": 1_000_001}),
    ("mark_rows", {"sets": 0}),
    ("mark_rows", {"station_code": "20"}),
    ("mark", {"station": ""}),
    ("mark", {"station": "SEVENTEEN LETTERS"}),
    ("mark", {"station": "P\u00e47"}),
    ("mark", {"sets": 0}),
    ("mark", {"sets": 1 << 32}),
    ("mark", {"targets": -1}),
    ("mark", {"sets": {}}),
    ("mark", {"sets": {"P1": 41}}),
    ("mark", {"sets": {"SEVENTEEN LETTERS": 3}}),
    ("mark", {"targets": {"P1": 101, None: 3}}),
    ("mark", {"targets": {"P1": 3, "0P1": 3}}),
    ("mark", {"targets": {"P1=3\nP2": 3}}),
    ("mark", {"station_code": ""}),
    ("mark", {"station_code": "20"}),
]
GIVEN: dict[str, list[bytes | str]] = {
    "list": [GSI.read_bytes()],
    "check": [GSI.read_bytes(), SHEET.read_bytes()],
    "compare": [GSI.read_bytes(), "P7", TABLE.read_bytes()],
    "differences": [GSI.read_bytes(), "P7", TABLE.read_bytes()],
    "directions": [GSI.read_bytes(), "P7"],
    "residuals": [GSI.read_bytes(), "P7"],
    "list_rows": [GSI.read_bytes()],
    "station": [GSI.read_bytes(), "P7", "field.gsi"],
    "mark": [JOB.read_bytes()],
    "mark_rows": [JOB.read_bytes()],
    "comma_rows": [GSI.read_bytes(), "P7"],
    "instrument": [GSI.read_bytes()],
}

# The call that takes each number that has a range, and how it is given to it.
RANGED: dict[str, tuple[str, Callable[[int], Any]]] = {
    "two_c": ("list", int),
    "two_i": ("list", int),
    "residual": ("check", int),
    "within": ("compare", int),
    "decimals": ("directions", int),
    "columns": ("compare", lambda number: (number, 2)),
    "sets": ("mark", lambda number: {"P7": number}),
    "targets": ("mark", lambda number: {"P7": number}),
}

# A field file that recorded instrument and time, and the lines of these that a report has, by the
# language: of an instrument the first content, of date and time the first and the last.
RECORDED = (
    b"*110001+00000000000000P1 12....+0000000000345678 13....+0000000TS16    1 18....+0000000000002630\n"
    b"110002+000000P2 12....+00345678 17....+27112026 19....+11270915\n"
    b"110003+000000P3 12....+00345678 17....+27112026 19....+11270929\n"
)
TOLD = {
    "en": [
        "  12 serial number    0000000000345678 and others",
        "  13 instrument type  0000000TS16    1",
        "  17 date             27112026",
        "  18 time format 1    0000000000002630",
        "  19 time format 2    11270915 to 11270929",
    ],
    "de": [
        "  12 Seriennummer     0000000000345678 und andere",
        "  13 Instrumententyp  0000000TS16    1",
        "  17 Datum            27112026",
        "  18 Zeitformat 1     0000000000002630",
        "  19 Zeitformat 2     11270915 bis 11270929",
    ],
    "fr": [
        "  12 n\u00b0 de s\u00e9rie      0000000000345678 et d'autres",
        "  13 type instrument  0000000TS16    1",
        "  17 date             27112026",
        "  18 format d'heure 1 0000000000002630",
        "  19 format d'heure 2 11270915 \u00e0 11270929",
    ],
}

# Mistakes of a caller, and what he is told.
MISTAKES: list[tuple[str, dict[str, Any], type[Exception], str]] = [
    ("check", {"residual": 2001}, ValueError, "residual is 2001: state 0 to 2000, in units of 0.005 mgon"),
    ("directions", {"decimals": 9}, ValueError, "decimals is 9: state 1 to 8"),
    ("directions", {"decimals": 4.0}, TypeError, "decimals is 4.0: state a whole number"),
    ("compare", {"within": True}, TypeError, "within is True: state a whole number"),
    ("compare", {"unit": "deg"}, ValueError, "unit is 'deg': state one of gon, degrees, dmmss"),
    ("instrument", {"language": "it"}, ValueError, "language is 'it': state one of en, de, fr"),
    ("compare", {"columns": (0, 2)}, ValueError, "columns is 0: state 1 to 999999"),
    (
        "differences",
        {"columns": (2, 2)},
        ValueError,
        'columns are two: of names and of directions, as (2, 6) or ("Target", "Hz")',
    ),
    (
        "compare",
        {"columns": (1, 2, 3)},
        ValueError,
        'columns are two: of names and of directions, as (2, 6) or ("Target", "Hz")',
    ),
    ("compare", {"columns": "Hz"}, ValueError, 'columns are two: of names and of directions, as (2, 6) or ("Target", "Hz")'),
    ("compare", {"columns": ("", "Hz")}, ValueError, 'columns are two: of names and of directions, as (2, 6) or ("Target", "Hz")'),
    ("compare", {"columns": (1, "Hz")}, ValueError, 'columns are two: of names and of directions, as (2, 6) or ("Target", "Hz")'),
    ("mark", {"sets": {}}, ValueError, "sets is empty: state a number, or None"),
    ("mark", {"sets": "3"}, TypeError, "sets is '3': state a whole number"),
    ("mark", {"sets": {"P1": 41}}, ValueError, "sets is 41: state 1 to 40"),
    (
        "mark",
        {"station": ""},
        ValueError,
        "station is '': state 1 to 16 letters, digits and signs of ASCII",
    ),
    (
        "mark",
        {"targets": {"P1\nP2": 3}},
        ValueError,
        "targets is 'P1\\nP2': state 1 to 16 letters, digits and signs of ASCII",
    ),
    (
        "mark",
        {"station_code": "10"},
        ValueError,
        "state a code that is none of 10, 20 and 30, and one number of each station",
    ),
    ("mark", {"station": b"P7"}, TypeError, "a name or a line is a str, and not bytes"),
]

# Tables of the example's station, each with its unit and the columns that are stated.
TABLES: list[tuple[str, tuple[int, int] | None, bytes]] = [
    ("degrees", None, b"A 0-00-00\nB 45-00-00.1\n"),
    ("dmmss", None, b"A,0.0000\nB,45.00001\n"),
    ("gon", None, b"1;A;0\n2;B;50.00003\n"),
    ("gon", None, b"1;A;0\n2;B;50.0010 gon\n"),
    ("degrees", (3, 1), b"0-00-00;x;A\n45-00-00.1;y;B\n"),
    ("gon", (1, 3), b"A;1;0\nB;2;50.00003\n"),
    ("gon", None, b"A;1;0\nB;2;50.00003\n"),
    ("gon", (999_999, 1), b"A;0\nB;50.00003\n"),
]

# So many generated stations have residuals, of up to the most sets and targets.
STATIONS, MOST = 300 if SWEEP else 30, (40, 100)

# So many calls are made at the same time, and so many after each other.
THREADS, TIMES = 8, 20

# How a C compiler looks at what users compile.
STRICT = ["-std=c11", "-Wall", "-Wextra", "-Wpedantic", "-Werror"]

# A program of the page, and what the page says that it prints.
SHOWN = re.compile(r"```python\n(.*?)```\n\nprints\n\n```text\n(.*?)```", re.DOTALL)

# What the library asks of the C library.
NEEDED = {"malloc", "realloc", "free", "memcpy", "memmove", "memset", "memcmp", "bcmp"}

# Calls each function again and again; the memory that is taken afterwards must be that before.
LEAKS = r"""
#include <malloc.h>
#include <stdio.h>
#include <string.h>
#include <station_check.h>

static char gsi[1 << 16], sheet[1 << 16], table[1 << 16], out[1 << 16], more[1 << 16];

static size_t read_file(const char *path, char *bytes) {
    FILE *file = fopen(path, "rb");
    size_t length = fread(bytes, 1, 1 << 16, file);
    fclose(file);
    return length;
}

int main(int count, char **words) {
    size_t length, second, taken = 0, noted = 0;
    size_t n = read_file(words[1], gsi), m = read_file(words[2], sheet), k = read_file(words[3], table);
    setbuf(stdout, NULL);
    for (int turn = 0; turn < 20; turn++) {
        if (turn == 1) taken = mallinfo2().uordblks;
        station_check_check(gsi, n, sheet, m, 2000, 2000, 1, 2000, out, sizeof out, &length);
        station_check_compare(gsi, n, table, k, "P7", 2, 2000, 2000, 0, 2, 3, 0, 0, out, sizeof out, &length,
                              more, sizeof more, &second);
        noted += second;
        station_check_differences(gsi, n, table, k, "P7", 2, 2000, 2000, 0, 0, 0, out, sizeof out, &length,
                                  more, sizeof more, &second);
        noted += second;
        station_check_differences(gsi, n, sheet, m, "P7", 2, 2000, 2000, 1, 0, 0, out, sizeof out, &length,
                                  more, sizeof more, &second);
        station_check_table(gsi, n, "gsi", 3, table, k, "csv", 3, "P7", 2, 2000, 2000, 0, 2, 3, 0, 0, out,
                            sizeof out, &length, more, sizeof more, &second);
        station_check_directions(gsi, n, "P7", 2, 2000, 2000, 6, out, sizeof out, &length);
        station_check_residuals(gsi, n, "P7", 2, 2000, 2000, out, sizeof out, &length);
        station_check_report(gsi, n, "gsi", 3, "P7", 2, 2000, 2000, 1, out, sizeof out, &length);
        station_check_means(gsi, n, "P7", 2, 2000, 2000, out, sizeof out, &length);
        station_check_list(gsi, n, 2000, 2000, out, sizeof out, &length);
        station_check_words(gsi, n, out, sizeof out, &length, more, sizeof more, &second);
        station_check_mark(gsi, n, "", 0, "", 0, "3\nP1=2", 6, "P1=4", 4, 0, 0, 0, out, sizeof out, &length,
                           more, sizeof more, &second);
        station_check_mark_rows(gsi, n, "", 0, "", 0, "3\nP1=2", 6, "P1=4", 4, 0, 0, 0, out, sizeof out, &length,
                                more, sizeof more, &second);
        station_check_comma_directions(gsi, n, "P7", 2, 2000, 2000, 6, out, sizeof out, &length);
        station_check_comma_rows(gsi, n, "P7", 2, 2000, 2000, out, sizeof out, &length);
        station_check_comma_differences(gsi, n, sheet, m, "P7", 2, 2000, 2000, 1, 0, 0, out, sizeof out, &length,
                                        more, sizeof more, &second);
        station_check_change(gsi, n, "1\n2=P8", 6, out, sizeof out, &length);
        station_check_digest(gsi, n, "gsi", 3, out, sizeof out, &length);
        station_check_explain("TwoC", 4, out, sizeof out, &length);
        station_check_explanation("TwoC", 4, out, sizeof out, &length);
        station_check_records(sheet, m, ',', out, sizeof out, &length);
        station_check_place("refused: kernel: TargetRow 1", 28, gsi, n, sheet, m, out, sizeof out, &length);
        station_check_instrument(gsi, n, STATION_CHECK_FRENCH, out, sizeof out, &length);
    }
    printf("%d %zu %d\n", count, mallinfo2().uordblks - taken, noted > 0);
    return 0;
}
"""


# Checks a sheet and compares a table with a limit of 0, and prints each line, for each number of the
# words that says whether it is stated.
STATED = r"""
#include <stdio.h>
#include <stdlib.h>
#include <station_check.h>

static char gsi[1 << 16], other[1 << 16], out[1 << 16], note[STATION_CHECK_NOTE];

static size_t read_file(const char *path, char *bytes) {
    FILE *file = fopen(path, "rb");
    size_t length = fread(bytes, 1, 1 << 16, file);
    fclose(file);
    return length;
}

int main(int count, char **words) {
    size_t length, noted, n = read_file(words[1], gsi), m = read_file(words[2], other);
    for (int at = 3; at < count; at++) {
        uint32_t is_stated = (uint32_t) strtoul(words[at], NULL, 10);
        station_check_check(gsi, n, other, m, 2000, 2000, is_stated, 0, out, sizeof out, &length);
        fwrite(out, 1, length, stdout);
    }
    m = read_file("table", other);
    for (int at = 3; at < count; at++) {
        uint32_t is_stated = (uint32_t) strtoul(words[at], NULL, 10);
        station_check_compare(gsi, n, other, m, "P7", 2, 2000, 2000, 0, 0, 0, is_stated, 0, out, sizeof out, &length,
                              note, sizeof note, &noted);
        fwrite(out, 1, length, stdout);
    }
    return 0;
}
"""


# A field file of targets whose names need quotes in a row.
QUOTED = GSI.read_bytes().replace(b"00P3 ", b'P,"3 ').replace(b"00P8 ", b"P, 8 ")


class Call(NamedTuple):
    """A call of the module: its name, its operands and its options."""

    command: str
    operands: list[bytes | str]
    options: dict[str, Any]


def row_of(cells: Iterable[str]) -> str:
    """A row of these cells, as a program writes it."""
    text = io.StringIO()
    csv.writer(text, lineterminator="").writerow(cells)
    return text.getvalue()


def loaded() -> Any:
    """The module over the library that was made."""
    os.environ["STATION_CHECK_LIBRARY"] = str(LIBRARY)
    spec = importlib.util.spec_from_file_location("station_check", CAPI / "station_check.py")
    assert spec and spec.loader
    module = importlib.util.module_from_spec(spec)
    sys.modules["station_check"] = module
    spec.loader.exec_module(module)
    return module


def call_of(case: run.Case) -> Call | None:
    """The call of the module that a case is; none where it is of the command line alone."""
    command, *words = case.args or ["words"]
    # (limits in mgon are texts, which the program reads)
    is_read = any(word.endswith("mgon") for word in words)
    if command not in OPERANDS or case.expected[0] > 1 or is_read:
        return None
    operands, options = list[str](), dict[str, Any]()
    while words:
        word = words.pop(0)
        name, _, value = word.removeprefix("--").partition("=")
        given = name.replace("-", "_")
        if not word.startswith("--"):
            operands.append(word)
        elif name in FLAGS:
            options[given] = True
        elif name in UNITS:
            # (where both are stated it is the second)
            options["unit"] = max(options.get("unit", name), name, key=UNITS.index)
        elif name == COLUMNS:
            pair = (value or words.pop(0)).split(",")
            options[given] = tuple(map(int, pair) if all(map(str.isdigit, pair)) else pair)
        elif name in NUMBERS:
            station, _, number = (value or words.pop(0)).rpartition("=")
            options.setdefault(given, {})[station or None] = int(number)
        elif name not in OPTIONS or (name == "residual" and command != OF_SHEETS):
            return None
        else:
            options[given] = OPTIONS[name](value or words.pop(0))
    folder, kinds = case.folder, OPERANDS[command]
    paths = [folder / word for word, kind in zip(operands, kinds) if kind is bytes]
    if len(operands) != len(kinds) or not all(path.is_file() for path in paths):
        return None
    # (what stands beside an empty list is the program's own)
    if command == "list" and case.expected[2] and case.expected[0] == 0:
        return None
    files: list[bytes | str] = []
    for word, kind in zip(operands, kinds):
        files.append((folder / word).read_bytes() if kind is bytes else word)
    return Call(command, files, options)


class LibraryTest(ProgramTest):
    maxDiff = None
    module: Any

    @classmethod
    def setUpClass(cls) -> None:
        super().setUpClass()
        if not LIBRARY.exists():
            raise unittest.SkipTest("the library is not made: make library")
        cls.module = loaded()

    def answer(self, command: str, operands: list[bytes | str], options: dict[str, Any]) -> Answer:
        """What a call answers, as a command does."""
        try:
            said = getattr(self.module, command)(*operands, **options)
        except self.module.Refused as refused:
            self.assertEqual(refused.line, str(refused))
            if command == "mark":
                return 1, b"", f"{refused.text}{refused.line}\n".encode()
            told = "".join(f"{line}\n" for line in (refused.note, refused.line) if line)
            return 1, refused.text.encode(), told.encode()
        if command == "mark":
            return 0, said.copy, said.notes.encode()
        if command in OF_PARTS:
            return 0, "".join(map(str, said)).encode(), b""
        note = f"{said.note}\n".encode() if command in OF_TABLES and said.note else b""
        return 0, f"{said}\n".encode() if command in OF_ONE_LINE else said.encode(), note

    def compiled(self, *words: str | Path) -> Path:
        """A program that was compiled with the library."""
        compiler = shutil.which("cc")
        if not compiler:
            self.skipTest("no C compiler is found")
        out = self.folder / "compiled"
        paths = [f"-I{CAPI}", *words, LIBRARY, f"-Wl,-rpath,{LIBRARY.parent}", "-o", out]
        self.assertEqual((0, b"", b""), answer_to([compiler, *STRICT, *paths]))
        return out

    # ------------------------------------------------------------ Python

    def test_the_calls_answer_as_each_case_says(self) -> None:
        calls = [(case, call) for case in map(as_call, run.cases()) if (call := call_of(case))]
        self.assertGreater(len(calls), 230)
        answered = {call.command for case, call in calls if case.expected[0] == 0}
        self.assertEqual(set(OPERANDS), answered)
        for case, call in calls:
            with self.subTest(case.name):
                self.assertEqual(without_hint(case.expected), self.answer(*call))

    def test_the_longest_note_of_a_table_has_the_room_that_the_header_says(self) -> None:
        """Each number of its first line is at most that of a table's bytes, and its second names a unit."""
        gsi, degrees = EXAMPLE.read_bytes(), b"1;A;0\n2;B;45.000027\n"
        with self.assertRaises(self.module.Refused) as raised:
            self.module.compare(gsi, "S1", degrees)
        first, second = raised.exception.note.splitlines()
        self.assertEqual(model.UNIT_NOTES["degrees"], f"{second}\n".encode())
        longest = max(map(len, model.UNIT_NOTES.values()))
        room = re.search(r"STATION_CHECK_NOTE (\d+)", HEADER.read_text())
        assert room
        self.assertLessEqual(len(re.sub(r"\d+", str(model.LONGEST_TABLE), first)) + 1 + longest, int(room[1]))

    def test_a_table_of_any_form_is_answered_as_by_the_model(self) -> None:
        """With its note, at a refusal too."""
        gsi, answered = EXAMPLE.read_bytes(), set[tuple[int, bool]]()
        calls: list[tuple[str, Any]] = [("compare", model.compared), ("differences", model.differences)]
        for unit, columns, table in TABLES:
            stated = (b"%d" % columns[0], b"%d" % columns[1]) if columns else None
            form, options = model.TableForm(unit, stated), {"unit": unit, "columns": columns}
            for command, of_model in calls:
                expected = without_hint(of_model(gsi, b"S1", table, form=form))
                answered.add((expected[0], expected[2].startswith(b"note: ")))
                with self.subTest(command, table=table, **options):
                    self.assertEqual(expected, self.answer(command, [gsi, "S1", table], options))
        self.assertEqual({(0, True), (0, False), (1, True), (1, False)}, answered)

    @unittest.skipUnless(PROGRAM.exists(), "the program is not built")
    def test_residuals_are_columns_of_the_rows_of_a_report(self) -> None:
        """Of stations up to the largest, some of which are refused."""
        field = self.folder / "field.gsi"
        for place in range(STATIONS):
            gsi = station_to_adjust(Random(f"{SEED} residuals {place}"), *MOST)
            field.write_bytes(gsi)
            with self.subTest(place):
                self.assertEqual(answer_of_residuals(field, "S1"), self.answer("residuals", [gsi, "S1"], {}))

    def test_room_for_a_text_grows_until_it_is_enough(self) -> None:
        usual = {name: self.answer(name, given, {}) for name, given in GIVEN.items()}
        explanation, room = self.module.explain("TwoC"), self.module._ROOM
        self.addCleanup(setattr, self.module, "_ROOM", room)
        self.module._ROOM = 1
        self.assertEqual(explanation, self.module.explain("TwoC"))
        for name, given in GIVEN.items():
            with self.subTest(name):
                self.assertEqual(usual[name], self.answer(name, given, {}))

    def test_what_is_out_of_its_range_is_a_value_error(self) -> None:
        for name, options in BEYOND:
            with self.subTest(name, **options), self.assertRaises(ValueError):
                getattr(self.module, name)(*GIVEN[name], **options)

    def test_a_file_is_bytes(self) -> None:
        for gsi in (GSI.read_text(), None, str(GSI), 7):
            with self.assertRaisesRegex(TypeError, "^a file is bytes, .*; not "):
                self.module.list(gsi)

    def test_a_file_may_be_any_buffer_of_its_bytes(self) -> None:
        kinds: list[Callable[[bytes], Any]] = [bytearray, memoryview]
        for name, given in GIVEN.items():
            for kind in kinds:
                with self.subTest(name, kind=kind):
                    others: list[Any] = [one if isinstance(one, str) else kind(one) for one in given]
                    self.assertEqual(self.answer(name, given, {}), self.answer(name, others, {}))
        every_second = memoryview(bytes(byte for byte in GSI.read_bytes() for _ in range(2)))[::2]
        self.assertEqual(self.module.list(GSI.read_bytes()), self.module.list(every_second))

    def takes(self, command: str, options: dict[str, Any]) -> bool:
        """Whether a call takes what is stated."""
        try:
            self.answer(command, GIVEN[command], options)
        except ValueError:
            return False
        return True

    def test_the_ranges_are_those_of_the_library(self) -> None:
        """Which refuses what is beyond them itself, where the module lets it through."""
        ranges = self.module._RANGES
        self.addCleanup(setattr, self.module, "_RANGES", ranges)
        self.assertEqual({*RANGED}, {*ranges})
        wide = {name: its._replace(least=0, most=(1 << 32) - 1) for name, its in ranges.items()}
        for self.module._RANGES in (ranges, wide):
            for name, its in ranges.items():
                command, as_given = RANGED[name]
                for number in (its.least, its.most, its.most + 1, max(its.least - 1, 0)):
                    with self.subTest(name, number=number):
                        taken = self.takes(command, {name: as_given(number)})
                        self.assertEqual(its.least <= number <= its.most, taken)

    def test_a_mistake_is_told_with_what_to_do(self) -> None:
        for name, options, kind, told in MISTAKES:
            with self.subTest(told), self.assertRaisesRegex(kind, f"^{re.escape(told)}$"):
                getattr(self.module, name)(*GIVEN[name], **options)

    def test_a_library_that_is_not_there_is_told_with_what_to_do(self) -> None:
        words = {"STATION_CHECK_LIBRARY": str(self.folder / "missing"), "PYTHONDONTWRITEBYTECODE": "1"}
        environment = {**os.environ, **words, "PYTHONPATH": str(CAPI)}
        status, _, said = answer_to([sys.executable, "-c", "import station_check"], env=environment)
        self.assertEqual(1, status)
        line = said.decode().splitlines()[-1]
        self.assertRegex(line, "^OSError: .*: install the library, or name one by STATION_CHECK_LIBRARY$")

    def test_what_a_field_file_recorded_is_told_in_each_language(self) -> None:
        for language, lines in TOLD.items():
            with self.subTest(language):
                told = self.module.instrument(RECORDED, language)
                self.assertEqual("".join(f"{line}\n" for line in lines), told)
        self.assertEqual(self.module.instrument(RECORDED, "en"), self.module.instrument(RECORDED))
        self.assertEqual("", self.module.instrument(GSI.read_bytes()))

    def test_a_refusal_has_its_explanation(self) -> None:
        with self.assertRaises(self.module.Refused) as apart:
            self.module.compare(*GIVEN["compare"], within=0)
        self.assertEqual(self.module.explain("Apart"), apart.exception.explanation())
        with self.assertRaises(self.module.Refused) as unknown:
            self.module.explain("Elephant")
        self.assertEqual("", unknown.exception.explanation())
        # (the place of the third row, by hand)
        sheet = b"sheet,1,P7,2\ntarget,,A,0\nobs,1,A,0,0\n"
        place = self.module.place("refused: kernel: ObsRow 1", GIVEN["compare"][0], sheet)
        self.assertEqual(("observation", 1, 3, 25, 36, 25, 36), place)
        self.assertIsNone(self.module.place(apart.exception.line, GIVEN["compare"][0]))
        copy = pickle.loads(pickle.dumps(apart.exception))
        self.assertEqual((apart.exception.line, "", ""), (copy.line, copy.text, copy.note))

    @unittest.skipUnless(PROGRAM.exists(), "the program is not built")
    def test_rows_are_the_numbers_of_the_program_s_rows(self) -> None:
        """Each number has the digits that the program prints, of stations up to the largest too."""
        field, met = self.folder / "field.gsi", 0
        texts = [GSI.read_bytes(), QUOTED]
        texts += [station_to_adjust(Random(f"{SEED} rows {n}"), *MOST) for n in range(STATIONS)]
        for gsi in texts:
            field.write_bytes(gsi)
            listed = list(csv.reader(answer_of(["list", "--csv", field])[1].decode().splitlines()))[1:]
            rows = self.module.observation_rows(self.module.list(gsi))
            self.assertEqual(listed, [[str(cell) for cell in row] for row in rows])
            station = listed[0][0]
            _, said, refusal = answer_of(["report", "--csv", field, station])
            if refusal:
                continue
            met += 1
            reported = list(csv.reader(said.decode().splitlines()))[1:]
            recorded = f"recorded,12,00345678{',' * 10}\n"
            readings = self.module.reading_rows(said.decode() + recorded)
            self.assertEqual(reported, [[str(cell) for cell in row] for row in readings])
            residuals = self.module.residual_rows(self.module.residuals(gsi, station))
            found = [[str(cell) for cell in row] for row in residuals]
            self.assertEqual([[row[place] for place in (1, 2, 5, 8, 9)] for row in reported], found)
            table = self.module.directions(gsi, station)
            directions = self.module.direction_rows(table)
            self.assertEqual(table.splitlines(), [row_of([name, str(gon)]) for name, gon in directions.items()])
            differences = self.module.differences(gsi, station, table.encode())
            rows = self.module.difference_rows(differences)
            self.assertEqual(differences.splitlines()[1:], [row_of(map(str, row)) for row in rows])
            self.assertEqual(directions, {row.target: row.stated for row in rows})
            self.assertTrue(all(isinstance(cell, Decimal) for row in rows for cell in row[1:]))
        self.assertGreater(met, 10)

    def test_a_target_that_a_table_lacks_has_its_least_squares_direction_alone(self) -> None:
        gsi = GSI.read_bytes()
        directions = self.module.directions(gsi, "P7")
        [(lacking, least), *stated] = self.module.direction_rows(directions).items()
        table = "".join(f"{target},{gon}\n" for target, gon in stated).encode()
        rows = self.module.difference_rows(self.module.differences(gsi, "P7", table))
        self.assertEqual((lacking, None, least, None, None), rows[0])
        self.assertEqual(stated, [(row.target, row.stated) for row in rows[1:]])

    def test_an_agreement_is_the_numbers_of_its_line(self) -> None:
        """With a name that looks like a part of the line too."""
        said = "2 sets, 2 targets, within 0.001 mgon, limit 0.010 mgon, greatest residual 0.005 mgon"
        table = b"A,0\nB,50.000031\n"
        self.assertEqual(f"agrees S1: {said}", self.module.compare(EXAMPLE.read_bytes(), "S1", table))
        numbers = [Decimal(number) for number in ("0.001", "0.010", "0.005")]
        for name in ["S1", ": 1 sets, 1 targ"]:
            found = self.module.agreement_numbers(f"agrees {name}: {said}")
            self.assertEqual((name, 2, 2, *numbers), found)

    def test_rows_of_another_text_are_a_value_error(self) -> None:
        gsi = GSI.read_bytes()
        for name, text in [
            ("residual_rows", self.module.differences(gsi, "P7", TABLE.read_bytes())),
            ("residual_rows", ""),
            ("difference_rows", self.module.residuals(gsi, "P7")),
            ("observation_rows", self.module.words(gsi)),
            ("reading_rows", self.module.residuals(gsi, "P7")),
            ("direction_rows", self.module.residuals(gsi, "P7")),
            ("agreement_numbers", ACCEPTED),
        ]:
            with self.subTest(name), self.assertRaises(ValueError):
                getattr(self.module, name)(text)

    @unittest.skipUnless(PROGRAM.exists(), "the program is not built")
    def test_each_refusal_is_explained_as_by_the_program(self) -> None:
        lines = {refusal_in(case.expected[2]) for case in run.cases() if case.expected[0] == 1}
        self.assertGreater(len(lines), 80)
        for line in sorted(lines):
            with self.subTest(line):
                self.assertEqual(answer_of(["explain", line])[1].decode(), self.module.explain(line))
        self.assertEqual(answer_of(["explain"])[1].decode(), self.module.explain())
        with self.assertRaisesRegex(self.module.Refused, "^refused: no such fault$"):
            self.module.explain("Elephant")

    def test_an_explanation_is_handed_out_in_its_parts(self) -> None:
        """Of an empty line there is none."""
        for line in ["TwoC", "Zenith Unit", "refused: block 3: Byte"]:
            with self.subTest(line):
                parts = dict(parts_of(self.module._answer("explanation", [line.encode()], [])))
                self.assertEqual(self.module.explain(line), printed_of(parts).decode())
        self.assertEqual(b"", self.module._answer("explanation", [b""], []))

    def test_a_digest_is_the_line_of_sha256sum(self) -> None:
        data = GSI.read_bytes()
        self.assertEqual(f"{hashlib.sha256(data).hexdigest()}  p7.gsi", self.module.digest(data, "p7.gsi"))
        self.assertEqual(f"\\{hashlib.sha256(b'').hexdigest()}  a\\\\b\\n", self.module.digest(b"", "a\\b\n"))

    @unittest.skipUnless(PROGRAM.exists(), "the program is not built")
    def test_a_report_is_that_of_the_program(self) -> None:
        report = self.module.report(GSI.read_bytes(), "P7", "a file")
        self.assertIn("\nField file            a file\n", report)
        self.assertIn("\nLimit of residuals    10.000 mgon\n", report)
        self.assertIn(" mgon, of one two-face direction\n", report)
        for language, said in [("de", "Messdatei"), ("fr", "Fichier de terrain")]:
            _, printed, _ = answer_of(["report", f"--language={language}", GSI, "P7"])
            report = self.module.report(GSI.read_bytes(), "P7", str(GSI), language=language)
            self.assertEqual((printed.decode(), True), (report, f"\n{said} " in report))
        with self.assertRaisesRegex(ValueError, "^language is 'it': state one of en, de, fr$"):
            self.module.report(GSI.read_bytes(), "P7", "a file", language="it")
        of_control = self.module.report(GSI.read_bytes(), "P7", "a\x1bfile")
        self.assertIn("\nField file            \\a\\x1bfile\n", of_control)
        with self.assertRaisesRegex(self.module.Refused, "^refused: no station$"):
            self.module.report(GSI.read_bytes(), "P8", "a file")

    @unittest.skipUnless(PROGRAM.exists(), "the program is not built")
    def test_a_list_of_rows_is_that_of_the_program_with_the_number_of_its_note(self) -> None:
        for path in (GSI, JOB):
            status, rows, note = answer_of(["list", "--csv", path])
            unchecked = re.findall(rb"\d+", note)[:1] or [b"0"]
            self.assertEqual((0, rows.decode(), int(unchecked[0])), (status, *self.module.list_rows(path.read_bytes())))
        with self.assertRaisesRegex(self.module.Refused, "^refused: block 1: "):
            self.module.list_rows(SHEET.read_bytes())

    @unittest.skipUnless(PROGRAM.exists(), "the program is not built")
    def test_all_of_a_station_has_the_texts_of_the_commands(self) -> None:
        gsi, path = GSI.read_bytes(), str(GSI)
        whole = self.module.station(gsi, "P7", path, decimals=4)
        self.assertEqual(self.module.directions(gsi, "P7", decimals=4), whole.directions)
        self.assertEqual(answer_of(["report", "--csv", GSI, "P7"])[1].decode(), whole.rows)
        self.assertEqual(answer_of(["report", GSI, "P7"])[1].decode(), whole.report)
        self.assertRegex(whole.accuracy, r"^degrees,deviation,of adjusted,squares\n\d+,\d+\.\d{3},,\d+\.\d{6}\n$")
        with self.assertRaisesRegex(self.module.Refused, "^refused: no station$"):
            self.module.station(gsi, "P8", path)

    @unittest.skipUnless(PROGRAM.exists(), "the program is not built")
    def test_all_of_a_table_has_the_texts_of_the_commands(self) -> None:
        gsi, table = GSI.read_bytes(), TABLE.read_bytes()
        wrong = self.folder / "wrong.csv"
        wrong.write_bytes(table.replace(b"278.86059", b"278.86065"))
        # (in mgon, as the line of each has them)
        agrees, apart = ("True", "0.004", "0.010", "0.320"), ("False", "0.030", "0.010", "None")
        for path, verdict in (TABLE, agrees), (wrong, apart):
            whole = self.module.table(gsi, "P7", path.read_bytes(), str(GSI), str(path))
            _, out, err = answer_of(["compare", GSI, "P7", path])
            self.assertEqual((out + err).decode(), f"{whole.line}\n")
            self.assertEqual(verdict, tuple(map(str, whole.verdict)))
            self.assertEqual(answer_of(["differences", GSI, "P7", path])[1].decode(), whole.differences)
            self.assertEqual(answer_of(["report", f"--table={path}", GSI, "P7"])[1].decode(), whole.report)
            self.assertEqual((None, ""), (whole.columns, whole.note))
        by_columns = b"".join(b"%d,%s" % row for row in enumerate(table.splitlines(keepends=True)))
        whole = self.module.table(gsi, "P7", by_columns, str(GSI), "", columns=(2, 3))
        self.assertEqual((2, 3, 0, 0, 0, 0), whole.columns)
        with self.assertRaisesRegex(self.module.Refused, "^refused: table row 1: Fields$"):
            self.module.table(gsi, "P7", b"P3\n", "", "")

    def test_a_copy_has_just_the_stated_lines_changed(self) -> None:
        first, second, *rest = GSI.read_bytes().splitlines(keepends=True)
        copy = self.module.change(GSI.read_bytes(), {1: None})
        self.assertEqual(b"".join([second, *rest]), copy)
        self.assertEqual(GSI.read_bytes(), self.module.change(GSI.read_bytes(), {}))
        with self.assertRaisesRegex(self.module.Refused, "^refused: block 999: change: NoSuchLine$"):
            self.module.change(GSI.read_bytes(), {999: "P7"})
        with self.assertRaises(ValueError):
            self.module.change(GSI.read_bytes(), {1: "P7\n2"})

    def test_calls_at_the_same_time_answer_as_each_alone(self) -> None:
        usual = {name: self.answer(name, given, {}) for name, given in GIVEN.items()}
        names = [*GIVEN] * TIMES
        with ThreadPoolExecutor(THREADS) as pool:
            answers = list(pool.map(lambda name: self.answer(name, GIVEN[name], {}), names))
        self.assertEqual([usual[name] for name in names], answers)

    def test_the_page_prints_what_it_shows(self) -> None:
        shown = SHOWN.findall((ROOT / "docs" / "LIBRARY.md").read_text())
        self.assertEqual(1, len(shown))
        path = {"PYTHONPATH": str(CAPI), "PYTHONDONTWRITEBYTECODE": "1"}
        for text, printed in shown:
            answer = answer_to([sys.executable, "-c", text], cwd=GSI.parent, env={**os.environ, **path})
            self.assertEqual((0, printed.encode(), b""), answer)

    def test_the_page_has_each_function_with_its_parameters(self) -> None:
        rows = re.findall(r"^\| `(\w+)\((.*?)\)` \|", (ROOT / "docs" / "LIBRARY.md").read_text(), re.MULTILINE)
        for name, parameters in rows:
            signature = inspect.signature(getattr(self.module, name))
            plain = ", ".join(
                one.name if one.default is one.empty else f"{one.name}={one.default!r}".replace("'", '"')
                for one in signature.parameters.values()
            )
            self.assertEqual(plain, parameters)
        of_files = {*OPERANDS, "change", "digest", "explain", "report", "list_rows", "station", "table"}
        of_files |= {"comma_rows", "mark_rows", "place", "instrument"}
        of_rows = {name for name in vars(self.module) if re.fullmatch("[a-z]+_(rows|numbers)", name)} - of_files
        self.assertEqual(6, len(of_rows))
        self.assertEqual(of_files | of_rows, {name for name, _ in rows})

    # ------------------------------------------------------------ C

    def test_the_example_compiles_and_says_whether_a_sheet_is_right(self) -> None:
        program, wrong = self.compiled(CAPI / "example.c"), self.folder / "wrong.csv"
        wrong.write_bytes(SHEET.read_bytes().replace(b"target,,P3,", b"target,,P3,1"))
        self.assertEqual((0, f"{ACCEPTED}\n".encode(), b""), answer_to([program, GSI, SHEET]))
        status, stdout, stderr = answer_to([program, GSI, wrong])
        self.assertEqual((1, b""), (status, stdout))
        self.assertTrue(stderr.startswith(b"refused: kernel: "), stderr)
        self.assertEqual(2, answer_to([program, GSI, self.folder / "missing"])[0])
        self.assertEqual(2, answer_to([program])[0])

    def test_the_example_compiles_by_pkg_config(self) -> None:
        compiler = shutil.which("cc")
        if not compiler or not shutil.which("pkg-config"):
            self.skipTest("no C compiler is found, or no pkg-config")
        for name in ("lib/pkgconfig", "include"):
            (self.folder / name).mkdir(parents=True)
        shutil.copy(CAPI / "station_check.pc", self.folder / "lib/pkgconfig")
        shutil.copy(HEADER, self.folder / "include")
        shutil.copy(LIBRARY, self.folder / "lib")
        (self.folder / "lib/libstation_check.so").symlink_to(LIBRARY.name)
        paths = {**os.environ, "PKG_CONFIG_PATH": str(self.folder / "lib/pkgconfig")}
        paths["LD_LIBRARY_PATH"] = str(self.folder / "lib")
        flags = answer_to(["pkg-config", "--cflags", "--libs", "station_check"], env=paths)[1].decode().split()
        program = self.folder / "check"
        built = answer_to([compiler, *STRICT, CAPI / "example.c", *flags, "-o", program])
        self.assertEqual((0, b"", b""), built)
        self.assertEqual((0, f"{ACCEPTED}\n".encode(), b""), answer_to([program, GSI, SHEET], env=paths))

    def test_the_header_is_c_plus_plus_too(self) -> None:
        compiler = shutil.which("c++")
        if not compiler:
            self.skipTest("no C++ compiler is found")
        text = '#include <station_check.h>\nint main() { return STATION_CHECK_DONE; }\n'
        words = [compiler, "-x", "c++", "-Wall", "-Wextra", "-Wpedantic", "-Werror", "-fsyntax-only", f"-I{CAPI}", "-"]
        done = subprocess.run(words, input=text, capture_output=True, text=True, timeout=60)
        self.assertEqual((0, ""), (done.returncode, done.stderr))

    def test_a_limit_is_stated_by_any_number_but_0(self) -> None:
        source = self.folder / "stated.c"
        source.write_text(STATED)
        program = self.compiled(source)
        (self.folder / "table").write_bytes(TABLE.read_bytes())
        numbers = [0, 1, 2, 255, 256, 1 << 16, 1 << 31, (1 << 32) - 1]
        status, said, stderr = answer_to([program, GSI, SHEET, *map(str, numbers)], cwd=self.folder)
        lines = said.decode().splitlines()
        of_sheet = [ACCEPTED, *["refused: kernel: Residual 1"] * (len(numbers) - 1)]
        agrees = "agrees P7: 4 sets, 6 targets, within 0.004 mgon, limit 0.010 mgon, greatest residual 0.320 mgon"
        apart = "refused: compare: Apart 0.004 mgon, limit 0.000 mgon"
        of_table = [agrees, *[apart] * (len(numbers) - 1)]
        self.assertEqual((0, [*of_sheet, *of_table], b""), (status, lines, stderr))

    def test_memory_is_given_back(self) -> None:
        source = self.folder / "leaks.c"
        source.write_text(LEAKS)
        program = self.compiled("-D_GNU_SOURCE", source)
        # (what lies ready for a thread would count as taken)
        plain = {"GLIBC_TUNABLES": "glibc.malloc.tcache_count=0"}
        numbered = self.folder / "numbered.csv"
        numbered.write_bytes(b"".join(b"%d,%s\n" % row for row in enumerate(TABLE.read_bytes().split(), 1)))
        self.assertEqual((0, b"4 0 1\n", b""), answer_to([program, GSI, SHEET, numbered], env=plain))

    def test_the_library_shows_the_calls_of_its_header_alone(self) -> None:
        if not shutil.which("nm"):
            self.skipTest("no nm is found")
        declared = set(re.findall(r"^uint8_t (\w+)\(", HEADER.read_text(), re.MULTILINE))
        self.assertEqual(25, len(declared))
        shown = subprocess.run(["nm", "-D", LIBRARY], check=True, capture_output=True, text=True).stdout
        kinds = {name.partition("@")[0]: kind for kind, name in re.findall(r"(?:[0-9a-f]{16}| {16}) (\w) (\S+)", shown)}
        self.assertEqual(declared, {name for name, kind in kinds.items() if kind == "T"})
        self.assertEqual(set(), {name for name, kind in kinds.items() if kind == "U"} - NEEDED)
        # Each export of the crate has a name.
        texts = [(CAPI / name).read_text() for name in ("names.ld", "stated.c")]
        exports = [name for text in texts for name in re.findall(r"station_page_\w+", text)]
        sources = "".join(path.read_text() for path in (ROOT / "crates/station_page/src").glob("*.rt"))
        of_crate = set(re.findall(r'extern "C" fn (station_page_\w+)', sources))
        self.assertEqual(of_crate, set(exports))
        self.assertEqual({name.replace("station_page_", "station_check_") for name in of_crate}, declared)


if __name__ == "__main__":
    unittest.main()
