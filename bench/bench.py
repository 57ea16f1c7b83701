#!/usr/bin/env python3
"""Measures station_check beside plain Rust programs of the same job: its time and its instructions.

It makes field files of the shapes that users have, builds plain.rs into a temporary folder, and
compares what the programs print byte for byte. Then there is a table for each of these:

  clock          `words`, `list`, `means` and `check` of files of 16 MB beside the other programs,
                 and the most memory that a run held
  instructions   the same on files of up to 2 MB, a byte of the field file, less those of the same
                 command on empty files, counted by valgrind
  adjusting      `directions` and all that prints more of an adjustment
  rows           `list --csv` beside `list`
  digests        `check --sha256` beside `check` and `sha256sum`
  mark           `mark` beside `list` of the same job without codes
  parts          in which functions most instructions are run

A time is the least of many turns, in which the commands of a row run one after the other. Times
have marks. At the end it is said which are not kept, and how busy other work kept the machine
meanwhile: nothing else should run. The status is 1 where a mark is not kept. The marks of `clock`
are those beside the program that is called `tuned`; where none is, beside the plain one.

`--only clock` is the short form, a minute or two. STATION_CHECK names another program than the
built one.
"""

import argparse
import os
import re
import shutil
import subprocess
import sys
import tempfile
from pathlib import Path
from typing import NamedTuple, Sequence

from measure import Command, OtherWork, instructions, least_times, memory, printed, shares
from shapes import Shape, field_file, job_file

ROOT = Path(__file__).resolve().parent.parent
PROGRAM = Path(os.environ.get("STATION_CHECK", ROOT / "build/station_check")).resolve()
DATA = ROOT / "bench" / "measured.txt"
PAGE = ROOT / "bench" / "README.md"

# What the file of what was measured begins with, and how a table of it begins.
HEAD = """\
Made by `make bench BENCH='--page ..'`; README.md says what is measured and how, and what the marks
are. Each table has the commit of its code, its machine, and how busy other work kept that meanwhile:
where that is more than a tenth of a thread, times are too long, and their ratios uncertain.
"""
BEGIN = "Commit "

# What the page shows of it: these commands of this file, and the heads of its columns.
SHORT, SHORT_HEADS = "16 MB, 10 targets", ["ours, ms", "tuned, ms", "plain, ms", "kept"]

# How rustc builds the plain programs: the fastest way that was found.
RUSTC = ["-C", "opt-level=3", "-C", "lto=fat", "-C", "codegen-units=1", "-C", "panic=abort"]

# By the clock a command takes at most so many times what the tuned program takes; `words` of GSI-16
# has a mark of its own.
TUNED, PLAIN = "tuned", "plain"
TIMES_TUNED, TIMES_TUNED_OF_LONG_WORDS = 0.92, 0.95
LARGE = (
    Shape("16 MB", 400, 40, 10),
    Shape("16 MB", 41, 40, 100),
    Shape("16 MB", 270, 40, 10, width=16),
    Shape("16 MB", 28, 40, 100, width=16),
)

# The files in which instructions are counted.
COUNTED = (
    Shape("16 KB", 1, 16, 10),
    Shape("10 KB", 1, 1, 100),
    Shape("400 KB", 10, 40, 10),
    Shape("400 KB", 1, 40, 100),
    Shape("400 KB", 10, 40, 10, end="\n"),
    Shape("400 KB", 1, 40, 100, shuffled=True),
    Shape("800 KB", 10, 40, 10, distances=True),
    Shape("600 KB", 10, 40, 10, width=16),
    Shape("600 KB", 1, 40, 100, width=16, end="\n"),
    Shape("2 MB, 1,000 stations of 4 sets", 1000, 4, 5),
    Shape("700 KB, 1,000 stations of 2 sets", 1000, 2, 3),
    Shape("200 KB, 1,000 stations of 1 set", 1000, 1, 1),
)

# The files of what is adjusted, and the mark of `directions` and `compare`: so many times `means`,
# or so many milliseconds. What prints more takes at most so many times what `directions` takes.
TIMES_MEANS, MILLISECONDS = "times means", "ms"
ADJUSTED = (
    (Shape("4 KB", 1, 4, 10), 1.1, TIMES_MEANS),
    (Shape("400 KB", 10, 40, 10), 30, MILLISECONDS),
    (Shape("16 MB", 400, 40, 10), 1.1, TIMES_MEANS),
    (Shape("400 KB", 1, 40, 100), 30, MILLISECONDS),
    (Shape("280 KB with gaps", 1, 40, 100, gaps=0.3), 30, MILLISECONDS),
    (Shape("two sessions with one target in common", 1, 40, 100, parts=2), 30, MILLISECONDS),
    (Shape("ten sessions in a row", 1, 40, 100, parts=10), 30, MILLISECONDS),
)
TIMES_DIRECTIONS = 1.2

# The files of which `list --csv` takes at most so many times what `list` takes.
LISTED = (LARGE[0], *(shape for shape in COUNTED if shape.stations in (10, 1000)))
TIMES_LIST = 1.2

# The jobs without codes of `mark`, which takes at most so many times the time of `list`. Of 200
# leading sights the first are to the targets of the sets, and the others to detail. The last two are
# refused, since there are more sets than a station may have, of one target: `mark` takes what it
# takes to find that.
JOBS = (
    Shape("16 KB", 1, 16, 10),
    Shape("400 KB", 10, 40, 10),
    Shape("400 KB", 1, 40, 100),
    Shape("600 KB", 10, 40, 10, width=16),
    Shape("800 KB", 10, 40, 10, distances=True),
    Shape("400 KB", 1, 40, 100, shuffled=True),
    Shape("280 KB with gaps", 1, 40, 100, gaps=0.3),
    Shape("790 KB, 80 stations of 1 set", 80, 1, 100),
    Shape("600 KB, 1,000 stations of 2 sets", 1000, 2, 3),
    Shape("1.3 MB, 1,000 stations of 2 sets", 1000, 2, 3, details=15),
    Shape("1 MB", 1, 2, 100, details=20_000),
    Shape("400 KB", 8, 40, 10, details=200),
    Shape("400 KB", 8, 40, 10, leading=200),
    Shape("16 MB", 400, 40, 10),
    Shape("16 MB", 41, 40, 100),
    Shape("16 MB", 270, 40, 10, width=16),
    Shape("16 MB", 200, 40, 10, distances=True),
    Shape("16 MB", 320, 40, 10, details=200),
    Shape("16 MB", 320, 40, 10, leading=200),
    Shape("400 KB", 1, 4_000, 1),
    Shape("16 MB", 1, 170_000, 1),
)
TIMES_LIST_OF_JOB = 2

# The files and jobs of which it is told in which functions most instructions are run: those that
# have so many of a hundred.
PARTED = (Shape("400 KB", 10, 40, 10), Shape("400 KB", 1, 40, 100))
LEAST_SHARE = 5

# Files of more bytes than this have fewer turns, and instructions are not counted there.
LONG = 3_000_000

# A machine is idle where other work keeps at most so many of its threads busy.
IDLE = 0.1

Row = list[str]


class Mark(NamedTuple):
    """What was measured, and the most that it may be: times another command, or milliseconds."""

    what: str
    found: float
    most: float

    def is_kept(self) -> bool:
        return self.found <= self.most


class Table:
    """A table, of which each row is printed as soon as it is measured."""

    def __init__(self, name: str, *header: str) -> None:
        self.name = name
        self.rows: list[Row] = []
        self.add([*header])
        self.add(["---"] * len(header))

    def add(self, row: Row) -> None:
        """Takes a row, and prints it."""
        self.rows.append(row)
        print(line_of(row), flush=True)


def line_of(row: Row) -> str:
    return "| " + " | ".join(row) + " |"


class Bench:
    """The programs that are measured, the first of them ours, a folder for their files, and the
    marks so far."""

    def __init__(self, programs: dict[str, Path], folder: Path, turns: int) -> None:
        self.programs = programs
        self.folder = folder
        self.gsi = folder / "file.gsi"
        self.turns = turns
        self.can_count = shutil.which("valgrind") is not None
        self.can_weigh = shutil.which("time") is not None
        self.marks: list[Mark] = []
        # The program that the marks are those beside, if there is one.
        self.marked = next((name for name in (TUNED, PLAIN) if name in programs), None)

    def file(self, text: str) -> Path:
        """The field file, which has this text from now on."""
        self.gsi.write_text(text, newline="")
        return self.gsi

    def is_long(self) -> bool:
        """Whether the field file is a long one."""
        return self.gsi.stat().st_size > LONG

    def times(self, commands: Sequence[Command], may_refuse: bool = False) -> list[float]:
        """The least time of each command, of more turns where they are short."""
        turns = self.turns * (1 if self.is_long() else 4)
        return least_times(commands, turns, may_refuse)

    def count(self, command: Command, may_refuse: bool = False) -> int | None:
        """The instructions of a command, where they are counted."""
        if not self.can_count or self.is_long():
            return None
        return instructions(command, self.folder, may_refuse)

    def of_all(self, shape: Shape) -> dict[str, Command]:
        """The words of the commands that all programs have, on the file of a shape and its sheet.
        They print the same."""
        gsi, sheet = self.file(field_file(shape)), self.folder / "sheet.csv"
        means: Command = ["means", gsi, f"S{shape.stations}"]
        sheet.write_bytes(self.same(means))
        asked: dict[str, Command]
        asked = {"words": ["words", gsi], "list": ["list", gsi], "means": means}
        asked["check"] = ["check", gsi, sheet]
        for words in asked.values():
            self.same(words)
        return asked

    def same(self, words: Command) -> bytes:
        """What all programs print alike."""
        outputs = [printed([program, *words]) for program in self.programs.values()]
        if any(output != outputs[0] for output in outputs):
            sys.exit(f"the programs print different texts: {' '.join(map(str, words))}")
        return outputs[0]

    def keeps(self, what: str, found: float, most: float) -> bool:
        """Whether a mark is kept; takes note of it."""
        self.marks.append(Mark(what, found, most))
        return self.marks[-1].is_kept()


def yes(is_so: bool) -> str:
    return "yes" if is_so else "no"


def clock(bench: Bench) -> Table:
    """The commands that all programs have, by the clock, on files of 16 MB."""
    names = [*bench.programs]
    titles = [f"{name}, ms" for name in names] + [f"of {name}" for name in names[1:]]
    held = [f"{name}, KB" for name in names] if bench.can_weigh else []
    table = Table("clock", "file", "command", *titles, "at most", "kept", *held)
    for shape in LARGE:
        for name, words in bench.of_all(shape).items():
            commands = [[program, *words] for program in bench.programs.values()]
            times = dict(zip(names, bench.times(commands)))
            ratios = {other: times["ours"] / times[other] for other in names[1:]}
            row = [shape.name(), name, *(f"{one:.2f}" for one in times.values())]
            row += [f"{one:.3f}" for one in ratios.values()]
            is_long = name == "words" and shape.width == 16
            most = TIMES_TUNED_OF_LONG_WORDS if is_long else TIMES_TUNED
            if bench.marked:
                what = f"{name} of {shape.name()}, times {bench.marked}"
                row += [f"{most}", yes(bench.keeps(what, ratios[bench.marked], most))]
            else:
                row += ["", ""]
            if bench.can_weigh:
                row += [f"{memory(command, bench.folder)[0]:,}" for command in commands]
            table.add(row)
    if bench.marked != TUNED:
        print(f"\nbench: no program {TUNED} was named: marks are beside {bench.marked or 'none'}")
    return table


def counted(bench: Bench) -> Table:
    """The instructions of these commands a byte of smaller files: ours, and ours of the others'."""
    table = Table("instructions", "file", "words", "list", "means", "check")
    empty, starts = bench.folder / "empty", dict[str, list[int]]()
    empty.touch()
    for shape in COUNTED:
        row = [shape.name()]
        for name, words in bench.of_all(shape).items():
            programs = bench.programs.values()
            if name not in starts:
                # Of empty files `means` and `check` refuse.
                on_empty: Command = [empty if isinstance(word, Path) else word for word in words]
                begun: list[Command] = [[one, *on_empty] for one in programs]
                starts[name] = [instructions(one, bench.folder, True) for one in begun]
            totals = [instructions([one, *words], bench.folder) for one in programs]
            ours, *others = [total - start for total, start in zip(totals, starts[name])]
            ratios = "".join(f", {ours / other:.2f}" for other in others)
            row.append(f"{ours / bench.gsi.stat().st_size:.1f}{ratios}")
        table.add(row)
    return table


def with_count(time: float, count: float | None) -> str:
    """A time, and instructions where they were counted."""
    return f"{time:.2f}" + ("" if count is None else f"; {count:.1f}")


def adjusting(bench: Bench) -> Table:
    """What adjusts: beside `means` where sets are complete, and beside `directions`."""
    printing = ["differences", "report", "report --csv", "report --table"]
    names = ["means", "directions", "compare", *printing]
    table = Table("adjusting", "file", *names, "kept")
    sheet = bench.folder / "table.csv"
    more: dict[str, Sequence[str | Path]]
    more = {"compare": [sheet], "differences": [sheet], "report --table": [f"--table={sheet}"]}
    more["report --csv"] = ["--csv"]
    for shape, most, of in ADJUSTED:
        of_station: Command = [bench.file(field_file(shape)), f"S{shape.stations}"]
        is_complete = shape.gaps == 0 and shape.parts == 1
        commands: dict[str, Command] = {
            name: [PROGRAM, name.split()[0], *of_station, *more.get(name, [])]
            for name in names
            if is_complete or name != "means"
        }
        sheet.write_bytes(printed(commands["directions"]))
        times = dict(zip(commands, bench.times([*commands.values()])))
        kept = list[bool]()
        for name in ("directions", "compare"):
            found = times[name] / times["means"] if of == TIMES_MEANS else times[name]
            kept.append(bench.keeps(f"{name} of {shape.name()}, {of}", found, most))
        for name in printing:
            what, found = f"{name} of {shape.name()}", times[name] / times["directions"]
            kept.append(bench.keeps(f"{what}, times directions", found, TIMES_DIRECTIONS))
        counts = {name: bench.count(command) for name, command in commands.items()}
        millions = {name: None if one is None else one / 1e6 for name, one in counts.items()}
        cells = {name: with_count(times[name], millions[name]) for name in commands}
        table.add([shape.name(), *(cells.get(name, "") for name in names), yes(all(kept))])
    return table


def rows(bench: Bench) -> Table:
    """The rows of the list beside its lines."""
    table = Table("rows", "file", "list", "list --csv", "times", "kept")
    for shape in LISTED:
        gsi = bench.file(field_file(shape))
        commands: list[Command] = [[PROGRAM, "list", gsi], [PROGRAM, "list", "--csv", gsi]]
        times, counts = bench.times(commands), [bench.count(one) for one in commands]
        millions = [None if count is None else count / 1e6 for count in counts]
        found = times[1] / times[0]
        kept = bench.keeps(f"list --csv of {shape.name()}, times list", found, TIMES_LIST)
        table.add([shape.name(), *map(with_count, times, millions), f"{found:.3f}", yes(kept)])
    return table


def digests(bench: Bench) -> Table:
    """What digests cost, and what one costs another program."""
    table = Table("digests", "file", "check", "check --sha256", "sha256sum")
    shape = LARGE[0]
    words = bench.of_all(shape)["check"][1:]
    commands: list[Command] = [[PROGRAM, "check", *words], [PROGRAM, "check", "--sha256", *words]]
    if shutil.which("sha256sum"):
        commands.append(["sha256sum", bench.gsi])
    cells = [f"{time:.2f}" for time in bench.times(commands)]
    table.add([shape.name(), *cells, *[""] * (3 - len(cells))])
    return table


def marking(bench: Bench) -> Table:
    """`mark` beside `list` of the same jobs without codes: instructions a byte, and pages."""
    held = ["list, pages", "mark, pages", "mark, KB"] if bench.can_weigh else []
    table = Table("mark", "job", "list", "mark", "times", "kept", *held)
    for shape in JOBS:
        gsi = bench.file(job_file(shape))
        commands: list[Command] = [[PROGRAM, "list", gsi], [PROGRAM, "mark", gsi]]
        times = bench.times(commands, may_refuse=True)
        counts = [bench.count(one, may_refuse=True) for one in commands]
        size, found = gsi.stat().st_size, times[1] / times[0]
        a_byte = [None if count is None else count / size for count in counts]
        kept = bench.keeps(f"mark of {shape.name()}, times list", found, TIMES_LIST_OF_JOB)
        row = [shape.name(), *map(with_count, times, a_byte), f"{found:.3f}", yes(kept)]
        if bench.can_weigh:
            (_, listed), (most, marked) = (memory(one, bench.folder, True) for one in commands)
            row += [f"{listed:,}", f"{marked:,}", f"{most:,}"]
        table.add(row)
    return table


def parts(bench: Bench) -> Table:
    """The functions in which commands run most of their instructions."""
    table = Table("parts", "file", "command", "of a hundred instructions")
    for shape in PARTED:
        asked = bench.of_all(shape)
        asked["directions"] = ["directions", bench.gsi, f"S{shape.stations}"]
        asked["mark"] = ["mark", bench.folder / "job.gsi"]
        (bench.folder / "job.gsi").write_text(job_file(shape), newline="")
        for name, words in asked.items():
            most = [
                f"{function} {share:.0f}"
                for function, share in shares([PROGRAM, *words], bench.folder)
                if share >= LEAST_SHARE
            ]
            table.add([shape.name(), name, ", ".join(most)])
    return table


# The tables, by the names of `--only`.
TABLES = {
    "clock": clock,
    "instructions": counted,
    "adjusting": adjusting,
    "rows": rows,
    "digests": digests,
    "mark": marking,
    "parts": parts,
}

# What each is called in the file, and what it shows.
TITLES = {
    "clock": (
        "By the clock",
        "Milliseconds from the start of a process to its end, and the most memory that a run held.",
    ),
    "instructions": (
        "In instructions",
        "A byte of the field file, less what the same command takes on empty files; then how much "
        "that is of plain and of tuned. The bytes of the sheet don't count: on small files, where "
        "it is a large part of what is read or written, means and check cost the most a byte.",
    ),
    "adjusting": (
        "Directions, and what prints more",
        "Milliseconds, and millions of instructions of the whole process. Plain and tuned have "
        "none of these but means.",
    ),
    "rows": ("Rows", "list --csv beside list: milliseconds, and millions of instructions."),
    "digests": ("Digests", "Milliseconds. Without --sha256 nothing is digested."),
    "mark": (
        "Mark",
        "Jobs without codes, beside list of the same job, which finds no set there: milliseconds, "
        "instructions a byte, and the pages of memory that were brought in.",
    ),
    "parts": (
        "Where instructions go",
        "The functions in which most instructions are run, each counted with all that the compiler "
        f"took into it: those with at least {LEAST_SHARE} of a hundred.",
    ),
}


def of_git(*words: str) -> str:
    """What git says of the code."""
    command = ["git", "-C", str(ROOT), *words, "--", "crates", "crates.txt"]
    return subprocess.run(command, capture_output=True, text=True).stdout.strip()


def commit() -> str:
    """The last commit of the code, and whether it has changed since."""
    name = of_git("log", "-1", "--format=%h") or "unknown"
    return f"{name} with changes" if of_git("status", "--porcelain") else name


def machine() -> str:
    """The processors of this machine: their name, and the numbers of family and model, for many have
    one name."""
    text = Path("/proc/cpuinfo").read_text()
    lines: dict[str, str] = dict(re.findall(r"^(model name|cpu family|model)\s*: (.*)$", text, re.MULTILINE))
    name, *numbers = (lines.get(key) for key in ("model name", "cpu family", "model"))
    kind = f" (family {numbers[0]}, model {numbers[1]})" if all(numbers) else ""
    return f"{os.cpu_count()} threads of {name or 'an unknown processor'}{kind}"


def tables_of(data: str) -> dict[str, str]:
    """The tables of a file by their names, each with what is said of how it was measured."""
    parts = [part.split("]", 1) for part in data.split("\n[")[1:]]
    return {name: body[body.index(BEGIN) :].rstrip("\n") for name, body in parts}


def data_of(tables: dict[str, str]) -> str:
    """The file that has these tables."""
    titled = [(name, *TITLES[name], tables[name]) for name in TITLES if name in tables]
    return HEAD + "".join(f"\n[{name}] {title}. {what}\n{made}\n" for name, title, what, made in titled)


def write_part(table: Table, said: str) -> None:
    """Puts a table into the file, below what is said of how it was measured, and what is shown of it
    into the page. The others stay."""
    tables = tables_of(DATA.read_text()) if DATA.exists() else {}
    tables[table.name] = "\n".join([said, *("\t".join(row) for row in table.rows if row[0] != "---")])
    DATA.write_text(data_of(tables))
    PAGE.write_text(with_short(PAGE.read_text(), tables))


def short_of(tables: dict[str, str]) -> str:
    """What the page shows of the tables: the commands of one file by the clock."""
    commit, heads, *rows = [line.split("\t") for line in tables["clock"].splitlines()]
    places = [heads.index(head) for head in ["command", *SHORT_HEADS]]
    shown = [[row[place] for place in places] for row in rows if row[0] == SHORT]
    table = [["Command", *SHORT_HEADS], ["---"] * len(places), *shown]
    return f"Of {SHORT}, by the clock ({commit[0].split(',')[0].lower()}):\n\n" + "\n".join(map(line_of, table))


def with_short(page: str, tables: dict[str, str]) -> str:
    """The page with what it shows of these tables."""
    return re.sub(rf"Of {SHORT}, by the clock .*\n\n(?:\|.*\n)+", lambda _: f"{short_of(tables)}\n", page)


def build(source: Path, folder: Path) -> Path:
    """Builds a program of one source file."""
    program = folder / f"built_{source.stem}_{len([*folder.iterdir()])}"
    subprocess.run(["rustc", "--edition", "2021", *RUSTC, "-o", program, source], check=True)
    return program


def programs_of(others: Sequence[tuple[str, Path]], folder: Path) -> dict[str, Path]:
    """The programs by their names, ours first; those of which the source is named are built."""
    sources = [(PLAIN, Path(__file__).with_name("plain.rs")), *others]
    if not shutil.which("rustc"):
        print("bench: rustc isn't found: no source is built, so there is no plain program")
        sources = [(name, path) for name, path in others if path.suffix != ".rs"]
    built = {name: build(path, folder) if path.suffix == ".rs" else path for name, path in sources}
    return {"ours": PROGRAM, **built}


def named_program(text: str) -> tuple[str, Path]:
    """A program to be measured too, with its name."""
    name, sign, path = text.partition("=")
    if not sign:
        raise argparse.ArgumentTypeError("NAME=PROGRAM is expected")
    return name, Path(path).resolve()


def say_at_end(bench: Bench, others: float) -> int:
    """Says which marks are kept, and whether the machine was idle; answers the status."""
    lost = [mark for mark in bench.marks if not mark.is_kept()]
    for mark in lost:
        print(f"bench: NOT KEPT: {mark.what}: {mark.found:.3f}, at most {mark.most}")
    if bench.marks:
        print(f"bench: {len(bench.marks) - len(lost)} of {len(bench.marks)} marks of time are kept")
    print(f"bench: other work kept {others:.1f} of {os.cpu_count()} threads busy meanwhile")
    if others > IDLE:
        print("bench: THE MACHINE WAS NOT IDLE: measure again with nothing else running")
    return 1 if lost else 0


def main() -> int:
    as_it_is = argparse.RawDescriptionHelpFormatter
    parser = argparse.ArgumentParser(description=__doc__, formatter_class=as_it_is)
    name = "NAME=PROGRAM"
    also = "measure these too; of a path that ends in .rs it builds the program itself"
    parser.add_argument("others", nargs="*", type=named_program, metavar=name, help=also)
    turns = "turns of each command on a large file (25); a smaller one has four times as many"
    parser.add_argument("--turns", type=int, default=25, help=turns)
    only = "only this table; it may be said more than once"
    parser.add_argument("--only", action="append", choices=TABLES, help=only)
    page = f"put the tables into {DATA.relative_to(ROOT)}"
    parser.add_argument("--page", action="store_true", help=page)
    options = parser.parse_args()
    if not os.access(PROGRAM, os.X_OK):
        sys.exit(f"no program at {PROGRAM}: 'make run' builds it")
    load = os.getloadavg()[0]
    print(f"bench: commit {commit()}; {machine()}; load {load:.2f} at the beginning", flush=True)
    with tempfile.TemporaryDirectory() as top:
        folder = Path(top)
        bench = Bench(programs_of(options.others, folder), folder, options.turns)
        asked = [*dict.fromkeys(options.only or TABLES)]
        if not bench.can_count:
            print("bench: valgrind isn't found: no instructions are counted")
            asked = [one for one in asked if one not in ("instructions", "parts")]
        if not bench.can_weigh:
            print("bench: GNU time isn't found: no memory is measured")
        whole = OtherWork()
        for one in asked:
            print(f"\n{one}\n", flush=True)
            beside = OtherWork()
            table = TABLES[one](bench)
            if options.page:
                said = f"Commit {commit()}, {machine()}; other work kept {beside.processors():.1f}"
                write_part(table, f"{said} of them busy meanwhile.")
        print()
        return say_at_end(bench, whole.processors())


if __name__ == "__main__":
    sys.exit(main())
