#!/usr/bin/env python3
"""Checks all sheets and tables of a folder, as many at a time as the machine has processors.

    python3 check_folder.py FOLDER [OPTION..]

The sheet NAME.csv, or NAME.STATION.csv if a field file has more stations, is checked against the
field file NAME.gsi. A table of directions, NAME.directions.csv or NAME.STATION.directions.csv, is
compared with it; a file that holds a table may leave out '.directions'. If more names fit, the
longest counts. Extensions may be in capitals too.

A field file is done if `station_check list` names stations in it, and each of them has an accepted
sheet or a table that agrees. The answer to each sheet and table is printed, and kept in NAME.answer
beside NAME.csv, in the place of an older answer; a file of that name that holds none is left as it
is, and NAME.csv is then not checked. Nothing else is written or removed: an answer whose sheet or
table is gone is named. A table that belongs to no field file, or to one of its stations by no name,
is said to be skipped, which is no mistake. So is a file of rows that station_check itself printed,
by `list --csv`, `differences` or `report --csv`, or of residuals that its page saved.

Exit status: 0 if there are field files, each is done, and nothing was refused; 1 if not;
2 if nothing could be checked: a mistake on the command line, no such folder, one that takes no
answers, no station_check.

Python 3.10 or later, and station_check on the path, are all it needs.
"""

import argparse
import io
import os
import re
import shutil
import subprocess
import sys
import tempfile
from collections import Counter, defaultdict
from collections.abc import Iterable, Iterator
from enum import Enum
from multiprocessing import Pool
from pathlib import Path
from typing import NamedTuple

# The name by which this script was called, for what it says.
SCRIPT = Path(sys.argv[0]).name

FIELD, CLAIM, ANSWER = ".gsi", ".csv", ".answer"

# How the name of a table may end, before its extension.
TABLE = ".directions"

# What each run of station_check finds in its environment.
ENVIRONMENT = dict(os.environb)

# What is said of a name that stands for nothing that can be read.
NO_FILE = "no file, but a folder, a pipe or a link to nothing"

# How an answer of station_check begins, and how many bytes one has at most: a path may be long.
ANSWERS = (b"accepted ", b"agrees ", b"refused: ", b"cannot open ", b"error: ", b"note: table: ")
LONGEST_ANSWER = 1 << 16

# The exit statuses of station_check.
ACCEPTED, REFUSED, MISTAKE = 0, 1, 2

COUNTS = rb": \d+ sets, \d+ targets, \d+ directions"
ACCEPTED_LINE = re.compile(rb"accepted (.*)" + COUNTS + rb", greatest residual \d+/\d+\n")
# A table's answer may have a note of the columns that were read, before a refusal or after the line
# of an agreement.
NOTE = b"note: "
AGREES_LINE = re.compile(
    rb"agrees (.*): \d+ sets, \d+ targets, within [\d.]+ mgon, limit [\d.]+ mgon, "
    rb"greatest residual [\d.]+ mgon\n(?:note: table: .*\n)?"
)
STATION_LINE = re.compile(rb"^station (.*)" + COUNTS + rb"$", re.MULTILINE)

# What tells a table from a sheet, in so many bytes of a file: a sheet has rows of five fields that
# begin with their kind, a table has numbers at the ends of its rows, in degrees with their signs.
HEAD = 4096
SHEET_ROW = re.compile(rb'^"?(?:sheet|target|set|obs)"?(?:,[^,\r\n]*){4}\s*$', re.MULTILINE)
SIGNS = "°'\"\u2032\u2033\u2019\u201d".encode()
TABLE_ROW = re.compile(
    rb'^[^,;\t ].*[,;\t ]"?[+-]?\d[\d.,:' + SIGNS + rb"-]*(?:[ \t]*gon)?[|,;\s]*$",
    re.MULTILINE,
)

# The rows of titles of what station_check prints as rows, and by which command, with commas or with
# semicolons; of what its page saves besides; and of the residuals that its library hands out.
TITLES = {
    b"station,set,target,direction,2c,2i": "list --csv",
    b"target,stated,least squares,difference,from the median": "differences",
    b"station,target,stated,least squares,difference,from the median": "differences --all",
    b"station,set,target,face one,face two,direction,2c,2i,adjusted,residual"
    b",zenith one,zenith two,zenith mean": "report --csv",
}
SAVED_TITLES = b"set,target,2c mgon,2i mgon"
HANDED_OUT_TITLES = b"set,target,direction,adjusted,residual"


class Refused(Exception):
    """Why nothing was checked."""


class Result(Enum):
    """What came of a sheet or a table."""

    GOOD = "accepted"
    REFUSED = "refused"
    NOT_CHECKED = "not checked"
    SKIPPED = "skipped"


# ---------------------------------------------------------------- names


def shown(text: str) -> str:
    """A text for a terminal: as it is, or its bytes with escapes if a sign in it controls one."""
    if text.isprintable():
        return text
    plain = range(ord(" "), ord("~") + 1)
    return "".join(
        chr(byte) if byte in plain and byte != ord("\\") else f"\\x{byte:02x}"
        for byte in os.fsencode(text)
    )


def files_by_name(paths: Iterable[str], extension: str) -> dict[str, list[str]]:
    """The files with an extension by their names, without it: more where capitals differ."""
    files = defaultdict(list)
    for path in sorted(paths):
        name, end = os.path.splitext(path)
        if end.lower() == extension:
            files[name].append(path)
    return files


def head_of(path: str, length: int = HEAD) -> bytes:
    """The first bytes of a file; none of one that can't be read, or is a pipe or a folder."""
    try:
        if not os.path.isfile(path):
            return b""
        with open(path, "rb") as file:
            return file.read(length)
    except OSError:
        return b""


def is_answer(path: str) -> bool:
    """Whether a file, and no link, holds an answer of station_check, or nothing where it was
    stopped."""
    if os.path.islink(path) or not os.path.isfile(path):
        return False
    printed = head_of(path, LONGEST_ANSWER + 1)
    return len(printed) <= LONGEST_ANSWER and (not printed or printed.startswith(ANSWERS))


def is_table(name: str, path: str) -> bool:
    """Whether a file is a table of directions, by what it holds or by its name: that of a station
    may end as that of a table."""
    head = head_of(path)
    if SHEET_ROW.search(head):
        return False
    return name.lower().endswith(TABLE) or bool(TABLE_ROW.search(head))


def origin_of(path: str) -> str | None:
    """Where a file of rows of station_check is from, as its first row tells."""
    first = head_of(path).removeprefix(b"\xef\xbb\xbf").partition(b"\n")[0].rstrip(b"\r")
    first = first.replace(b";", b",")
    if first in TITLES:
        return f"'station_check {TITLES[first]}' printed"
    if first == HANDED_OUT_TITLES:
        return "the library handed out"
    return "the page saved" if first == SAVED_TITLES else None


class Claim(NamedTuple):
    """A sheet or a table: its name without extension, its files, and the field file of its name."""

    name: str
    paths: list[str]
    is_table: bool
    field: str | None

    def station(self, stations: list[bytes]) -> bytes | None:
        """The station of a table: the one that its name has after that of the field file, or else
        the only one."""
        field = self.field or ""
        if after := without_end(self.name)[len(field) + 1 :]:
            return os.fsencode(after)
        return stations[0] if len(stations) == 1 else None


def without_end(name: str) -> str:
    """A name without what says that it is one of a table."""
    return name[: -len(TABLE)] if name.lower().endswith(TABLE) else name


def field_of(claim: str, fields: Iterable[str]) -> str | None:
    """The longest name of a field file that is the claim's name, or begins it before a point."""
    while claim not in fields:
        claim, point, _ = claim.rpartition(".")
        if not point:
            return None
    return claim


# ---------------------------------------------------------------- runs


class Run(NamedTuple):
    """A run of station_check: its arguments, and the file that takes all that it prints."""

    name: str
    args: tuple[str | bytes, ...]
    output: str

    def status(self) -> int:
        """Runs it, and answers its exit status. The file is a new one."""
        flags = os.O_WRONLY | os.O_CREAT | os.O_EXCL
        takes = (os.POSIX_SPAWN_OPEN, 1, self.output, flags, 0o666)
        both = (os.POSIX_SPAWN_DUP2, 1, 2)
        try:
            run = os.posix_spawn(self.args[0], self.args, ENVIRONMENT, file_actions=[takes, both])
        except OSError as why:  # the program has run before, so it is the output
            raise Refused(f"cannot write {shown(self.output)}: {why.strerror}") from None
        return os.waitstatus_to_exitcode(os.waitpid(run, 0)[1])

    def printed(self) -> bytes:
        return Path(self.output).read_bytes()


def finished(runs: list[Run], jobs: int) -> Iterator[tuple[Run, int]]:
    """Each run with its exit status; so many run at a time."""
    with Pool(jobs) as pool:
        yield from zip(runs, pool.imap(Run.status, runs, chunksize=8))


def told_of(printed: bytes) -> tuple[bytes, bytes]:
    """An answer without its notes, and these."""
    said, notes = list[bytes](), list[bytes]()
    for line in printed.splitlines(keepends=True):
        (notes if line.startswith(NOTE) else said).append(line)
    return b"".join(said), b"".join(notes)


def first_line(printed: bytes) -> str:
    return os.fsdecode(printed.partition(b"\n")[0]) or "no answer"


# ---------------------------------------------------------------- the folder


class Options(NamedTuple):
    """What was stated for the commands of station_check, and how many run at a time."""

    limits: list[str]
    check: list[str]
    compare: list[str]
    jobs: int


class Folder:
    """The field files, sheets and tables of the folder that is the current one."""

    def __init__(self, program: str, options: Options):
        self.program, self.options = program, options
        paths = [path for path in os.listdir() if not path.startswith(".")]
        self.fields = files_by_name(paths, FIELD)
        self.claims: list[Claim] = []
        # The names of files of rows of station_check, and where they are from.
        self.printed: dict[str, str] = {}
        for name, given in files_by_name(paths, CLAIM).items():
            files = []
            for path in given:
                if origin := origin_of(path):
                    self.printed[name] = origin
                else:
                    files.append(path)
            if not files:
                continue
            field = field_of(name, self.fields)
            self.claims.append(Claim(name, files, is_table(name, files[0]), field))
        # The files that stand where an answer would, and are none; answers of before are gone.
        self.in_the_way: set[str] = set()
        for claim in self.claims:
            path = claim.name + ANSWER
            if is_answer(path):
                os.remove(path)
            elif os.path.lexists(path):
                self.in_the_way.add(path)
        # Answers to sheets and tables that are gone.
        named = {claim.name + ANSWER for claim in self.claims}
        others = [path for path in sorted(paths) if path.endswith(ANSWER) and path not in named]
        self.left_over = [path for path in others if is_answer(path)]
        # Of each field file its stations, and what is said where it has none.
        self.stations: dict[str, list[bytes]] = {}
        self.said: dict[str, str] = {}
        # Of each sheet and table what came of it, and what is said of it.
        self.results: dict[str, tuple[Result, str]] = {}
        # Of tables the notes that say which of their columns were read.
        self.notes: dict[str, str] = {}
        # Of each field file the stations with an accepted sheet or a table that agrees.
        self.good: dict[str, set[bytes]] = defaultdict(set)

    def list_stations(self) -> None:
        """Finds the stations of each field file."""
        with tempfile.TemporaryDirectory() as lists:
            runs = []
            for place, (field, files) in enumerate(self.fields.items()):
                if not os.path.isfile(files[0]):
                    self.stations[field], self.said[field] = [], NO_FILE
                    continue
                words = (self.program, "list", *self.options.limits, f"./{files[0]}")
                runs.append(Run(field, words, os.path.join(lists, str(place))))
            for run, status in finished(runs, self.options.jobs):
                printed = run.printed()
                os.remove(run.output)
                stations = STATION_LINE.findall(printed) if status == ACCEPTED else []
                self.stations[run.name] = stations
                if not stations:
                    says = printed or status != ACCEPTED  # a note, or why it is refused
                    self.said[run.name] = first_line(printed) if says else "no station"

    def why_not(self, claim: Claim) -> str | None:
        """Why a sheet or a table can't be checked, where its name doesn't tell which files belong
        together."""
        if claim.field is None:
            of = "a table of directions with " if claim.is_table else ""
            return f"{of}no field file of this name; capitals count"
        for files in claim.paths, self.fields[claim.field]:
            if len(files) > 1:
                return f"one name for {' and '.join(files)}"
            if not os.path.isfile(files[0]):
                return NO_FILE
        if claim.name + ANSWER in self.in_the_way:
            return f"{claim.name}{ANSWER} is in the way: it is no answer of station_check"
        if claim.is_table and claim.station(self.stations[claim.field]) is None:
            if claim.field in self.said:
                return self.said[claim.field]
            return f"of which station? name it {claim.field}.STATION{TABLE}{CLAIM}"
        return None

    def arguments(self, claim: Claim) -> tuple[str | bytes, ...]:
        """The command that checks a sheet or compares a table."""
        assert claim.field is not None
        field, path = f"./{self.fields[claim.field][0]}", f"./{claim.paths[0]}"
        if not claim.is_table:
            return self.program, "check", *self.options.check, field, path
        station = claim.station(self.stations[claim.field])
        assert station is not None
        return self.program, "compare", *self.options.compare, "--", field, station, path

    def check(self) -> None:
        """Checks each sheet against its field file, and compares each table with it."""
        runs, claims = [], {claim.name: claim for claim in self.claims}
        for claim in self.claims:
            if said := self.why_not(claim):
                not_compared = Result.SKIPPED if claim.is_table else Result.NOT_CHECKED
                self.results[claim.name] = not_compared, said
            else:
                runs.append(Run(claim.name, self.arguments(claim), claim.name + ANSWER))
        for run, status in finished(runs, self.options.jobs):
            claim, printed = claims[run.name], run.printed()
            line = AGREES_LINE if claim.is_table else ACCEPTED_LINE
            good = line.fullmatch(printed) if status == ACCEPTED else None
            if good and claim.field is not None:
                self.good[claim.field].add(good[1])
            result = Result.REFUSED if status == REFUSED else Result.NOT_CHECKED
            answer, notes = told_of(printed)
            self.results[run.name] = Result.GOOD if good else result, first_line(answer)
            if claim.is_table and notes:
                self.notes[run.name] = first_line(notes)

    def left(self, field: str) -> list[str]:
        """What is still to be done of a field file."""
        if field in self.said:
            return [self.said[field]]
        return [
            f"no accepted sheet or agreeing table of station {os.fsdecode(station)}"
            for station in self.stations[field]
            if station not in self.good[field]
        ]

    def counts(self, tables: bool) -> Counter[Result]:
        """What came of the sheets, or of the tables."""
        return Counter(self.results[one.name][0] for one in self.claims if one.is_table == tables)

    def report(self) -> bool:
        """Prints what came of each sheet and table and is left of each field file; whether all is
        well."""
        for claim in self.claims:
            print(shown(f"{claim.name}: {self.results[claim.name][1]}"))
            if note := self.notes.get(claim.name):
                print(shown(f"{claim.name}: {note}"))
        for name, origin in self.printed.items():
            print(shown(f"{name}: rows that {origin}"))
        for path in self.left_over:
            print(shown(f"{path}: an answer of before; no sheet or table has its name"))
        left = {field: self.left(field) for field in self.fields}
        for field, lines in left.items():
            for said in lines:
                print(shown(f"{field}: {said}"))
        done, files = sum(not lines for lines in left.values()), len(self.fields)
        sheets, tables = self.counts(False), self.counts(True)
        each = [f"{sheets[result]} {result.value}" for result in list(Result)[:3]]
        line = f"{done} of {files} field files done; of the sheets {', '.join(each)}"
        if tables:
            others = tables[Result.NOT_CHECKED] + tables[Result.SKIPPED]
            line += f"; of the tables {tables[Result.GOOD]} agreed, "
            line += f"{tables[Result.REFUSED]} refused, {others} not compared"
        print(line)
        bad = [counts[result] for counts in (sheets, tables) for result in list(Result)[1:3]]
        return 0 < done == files and not any(bad)


# ---------------------------------------------------------------- the command line


def command_line() -> argparse.ArgumentParser:
    parser = argparse.ArgumentParser(
        allow_abbrev=False,
        description="Checks all sheets of a folder, NAME.csv or NAME.STATION.csv, against their "
        "field files, NAME.gsi, and compares tables of directions, NAME.directions.csv or "
        "NAME.STATION.directions.csv, with them. Each station that 'station_check list' names needs "
        "an accepted sheet or a table that agrees. The answer to each is kept in NAME.answer.",
        epilog="Exit status: 0 there are field files, each is done, each sheet is accepted and "
        "each table that was compared agrees, 1 not so, 2 nothing could be checked.",
    )
    parser.add_argument("folder", metavar="FOLDER")
    both = "'station_check check' and 'station_check compare'"
    for option, commands in [
        ("--two-c", both),
        ("--two-i", both),
        ("--residual", both),
        ("--within", "'station_check compare'"),
    ]:
        text = f"as of {commands}"
        parser.add_argument(option, metavar="LIMIT", action="append", default=[], help=text)
    for option, text in [
        ("--degrees", "tables are in degrees, and not in gon"),
        ("--dmmss", "their degrees have minutes and seconds after the point"),
    ]:
        text = f"as of 'station_check compare': {text}"
        parser.add_argument(option, action="count", default=0, help=text)
    text = "as of 'station_check compare': of each table these columns are read"
    parser.add_argument("--columns", metavar="N,D", action="append", default=[], help=text)
    parser.add_argument("--jobs", metavar="N", type=int, help="so many at a time")
    return parser


def stated(asked: argparse.Namespace, *names: str) -> list[str]:
    """The options of these names as they were stated."""
    return [f"--{name}={n}" for name in names for n in getattr(asked, name.replace("-", "_"))]


def options_of(asked: argparse.Namespace) -> Options:
    limits = stated(asked, "two-c", "two-i")
    check = [*limits, *stated(asked, "residual")]
    units = [*["--degrees"] * asked.degrees, *["--dmmss"] * asked.dmmss]
    compare = [*check, *stated(asked, "within", "columns"), *units]
    return Options(limits, check, compare, max(1, asked.jobs or os.cpu_count() or 1))


def found_program(options: Options) -> str:
    """The path of station_check, which takes these options."""
    program = shutil.which("station_check")
    if program is None:
        raise Refused("no station_check is on the path")
    for words in [
        ["check", *options.check, os.devnull, os.devnull],
        ["compare", *options.compare, os.devnull, "S", os.devnull],
    ]:
        done = subprocess.run([program, *words], capture_output=True, text=True)
        if done.returncode != REFUSED:  # an empty sheet is refused, and an empty field file
            raise Refused(done.stderr.rstrip("\n"))
    return os.path.abspath(program)


def enter(folder: str) -> None:
    """Makes a folder the current one."""
    try:
        os.chdir(folder)
    except OSError as why:
        raise Refused(f"cannot open {shown(folder)}: {why.strerror}") from None


def main() -> int:
    asked = command_line().parse_args()
    if isinstance(sys.stdout, io.TextIOWrapper):
        sys.stdout.reconfigure(errors="backslashreplace")
    try:
        options = options_of(asked)
        program = found_program(options)
        enter(asked.folder)
        folder = Folder(program, options)
        folder.list_stations()
        folder.check()
        well = folder.report()
    except (Refused, OSError) as why:
        print(f"{SCRIPT}: {why}", file=sys.stderr)
        return MISTAKE
    return ACCEPTED if well else REFUSED


if __name__ == "__main__":
    sys.exit(main())
