"""The gate: `rt ci`, then the tests of the command line. Its last line is 'N passed, M failed'.

It says how long the last run here took, and each minute how far it is; at its end it names what was
skipped, and keeps its times for the next run.
"""

import json
import os
import re
import shutil
import subprocess
import sys
import tempfile
import threading
import time
from pathlib import Path
from typing import Any, Iterator

import command_line

ROOT = Path(__file__).resolve().parent.parent
sys.path[:0] = [str(ROOT / "tools")]
import prove  # noqa: E402

# The program as `rt ci` leaves it, and where it is run from.
LINKED = ROOT / "crates" / "station_program" / "out" / "station_program"
PROGRAM = ROOT / "build" / "station_check"

# The page, its crate, and what makes it.
PAGE = ROOT / "build" / "station_check.html"
PAGE_CRATE = "station_page"
PAGE_BUILD = ROOT / "page" / "build.py"

# The shared library, what links it, and the static library of which it is made: the page's build leaves that.
LIBRARY = ROOT / "build" / "libstation_check.so.1"
LINK = ROOT / "capi" / "link.sh"
STATIC = ROOT / "build" / "page" / "lib.a"
COUNTS = re.compile(r"^(\d+) passed, (\d+) failed$")

# Where a run that has passed leaves its times: beside build/, which `make clean` takes away. And
# the row that the page of tests has of a run elsewhere, once one was measured.
TIMES = ROOT / "gate_times.json"
TESTS_PAGE = ROOT / "docs" / "TESTS.md"
MEASURED = re.compile(r"^\| `make test` \| (\d+) min\b[^|]* \| ([^|]*) \|$", re.MULTILINE)

# The memory that a check of the largest crate stays within, whose proof and tests may run side by
# side, and that any other check stays within, in bytes.
LARGEST_CHECK = 5 * 2**30
OTHER_CHECK = 2 * 2**30

# The limits that a container may set: of memory in bytes, and of processors as time in a period.
MEMORY_LIMITS = ["/sys/fs/cgroup/memory.max", "/sys/fs/cgroup/memory/memory.limit_in_bytes"]
TIME_LIMITS = [
    ["/sys/fs/cgroup/cpu.max"],
    ["/sys/fs/cgroup/cpu/cpu.cfs_quota_us", "/sys/fs/cgroup/cpu/cpu.cfs_period_us"],
]

# What `rt ci` says of a crate.
PROVED = re.compile(r"^rt: (\w+) (?:proved$|is kept: )")
TESTED = re.compile(r"^rt: (\w+): its tests are proved$")
TRIED = re.compile(r"^rt: (\w+): trying its must-fail edits \((\d+)\)$")
REFUSED = re.compile(r"^rt: must-fail \S+: refused, as it must be")
# A wrong body that shows little of its contract: it takes a name away that a proof file has.
REFUSED_BY_NAME = re.compile(REFUSED.pattern + r" \(only because a proof file names ")
NOTE = re.compile(r"^rt: note: ")
FAILED = re.compile(
    r"^rt: (FAILED: |\w+(: its tests are)? NOT PROVED|.*(NOT REFUSED|BAD EDIT): )"
)

# How often it is said how far the gate is, in seconds.
SAY = 60


def numbers_in(*paths: str) -> list[int]:
    """The numbers in these files, or none where one is missing or sets no limit."""
    try:
        words = [word for path in paths for word in Path(path).read_text().split()]
    except OSError:
        return []
    return [int(word) for word in words] if all(map(str.isdigit, words)) else []


def processors() -> int:
    """How many processors there are to use."""
    found = [len(os.sched_getaffinity(0))]
    for paths in TIME_LIMITS:
        if limit := numbers_in(*paths):
            found.append(max(1, limit[0] // limit[1]))
    return min(found)


def memory() -> int:
    """How much memory there is to use, in bytes."""
    found = [os.sysconf("SC_PAGE_SIZE") * os.sysconf("SC_PHYS_PAGES")]
    return min(found + [limit for path in MEMORY_LIMITS for limit in numbers_in(path)])


def environment(room: str) -> dict[str, str]:
    """The environment of `rt ci`: one check at a time for each processor, as far as memory goes,
    and a folder of its own for what it writes meanwhile.

    By itself `rt ci` keeps the largest crate back until all the memory is free that it might take,
    and then proves it last and alone; where memory does not hold two of its size, it knows better
    which smaller ones go together. RT_JOBS of the caller stands.
    """
    checks = min(processors(), 2 + (memory() - 2 * LARGEST_CHECK) // OTHER_CHECK)
    jobs = {"RT_JOBS": str(checks)} if checks > 1 else {}
    return {**jobs, **os.environ, "TMPDIR": room}


class Progress:
    """How far `rt ci` is, by what it says: it tells of a proof when it has ended, of a crate's wrong
    bodies when the first of them is tried, and of each of these at its own end."""

    def __init__(self) -> None:
        self.start = time.monotonic()
        names = re.findall(r"^(\w+)(?: staticlib)?:", (ROOT / "crates.txt").read_text(), re.MULTILINE)
        self.wrong = {name: len([*(ROOT / "crates" / name).glob("must-fail/*.edit")]) for name in names}
        self.of_page = prove.below(PAGE_CRATE, prove.libraries(ROOT))
        # The minutes at which each crate was proved, its tests were, and its wrong bodies were begun.
        self.proved: dict[str, float] = {}
        self.tested: dict[str, float] = {}
        self.begun: dict[str, float] = {}
        # How many wrong bodies were refused, and how many of these only for a name that is gone.
        self.refused = self.refused_by_name = 0
        self.notes: list[str] = []
        self.failed: list[str] = []

    def hear(self, line: str) -> None:
        """Takes note of a line of `rt ci`."""
        for said, minutes in [(PROVED, self.proved), (TESTED, self.tested), (TRIED, self.begun)]:
            if found := said.match(line):
                minutes[found[1]] = self.minutes()
        self.refused += bool(REFUSED.match(line))
        self.refused_by_name += bool(REFUSED_BY_NAME.match(line))
        if NOTE.match(line):
            self.notes.append(line.rstrip("\n"))
        if FAILED.match(line):
            self.failed.append(line.rstrip("\n"))

    def minutes(self) -> float:
        return (time.monotonic() - self.start) / 60

    def lacking(self) -> list[str]:
        """The crates that are not yet proved."""
        return [crate for crate in self.wrong if crate not in self.proved]

    def can_begin_page(self) -> bool:
        """Whether all that the page stands on is proved."""
        return self.of_page <= self.proved.keys()

    def line(self) -> str:
        lacking = self.lacking()
        proved = f"not yet proved: {', '.join(lacking)}" if lacking else "all crates proved"
        begun = sum(self.wrong[crate] for crate in self.begun)
        wrong = f"wrong bodies begun: those of {len(self.begun)} crates, {begun} of {sum(self.wrong.values())}"
        return f"gate: {self.minutes():.0f} min: {proved}; tests of {len(self.tested)}; {wrong}"

    def times(self) -> Iterator[str]:
        """A table of when each crate's work was done."""
        yield f"{'minutes':26}{'proved':>8}{'tests':>8}{'wrong bodies begun':>24}"
        for crate, wrong in self.wrong.items():
            ended = [self.proved.get(crate), self.tested.get(crate)]
            columns = "".join(" " * 8 if at is None else f"{at:8.1f}" for at in ended)
            begun = f"{self.begun[crate]:.1f} ({wrong})" if crate in self.begun else ""
            yield f"{crate:26}{columns}{begun:>24}"

    def refusals(self) -> str:
        """How many wrong bodies were refused, and how many for a reason that shows little."""
        return (
            f"gate: {self.refused} wrong bodies were refused, {self.refused_by_name} of them only "
            "because a proof file names what the edit took away: they say little of a contract"
        )

    def kept(self) -> dict[str, Any]:
        """The times of a run that ends now."""
        minutes = {"proved": self.proved, "tests": self.tested, "wrong bodies begun": self.begun}
        return {
            "minutes": round(self.minutes(), 1),
            "processors": processors(),
            "commit": commit(),
            "wrong_bodies": sum(self.wrong.values()),
            "crates": {
                crate: {what: round(at[crate], 1) for what, at in minutes.items() if crate in at}
                for crate in self.wrong
            },
        }

    def show(self, has_ended: threading.Event) -> None:
        """Says how far it is until it has ended."""
        while not has_ended.wait(SAY):
            print(self.line(), flush=True)


class Page:
    """The page, made beside the other proofs once `rt ci` has proved the crates that it stands on.

    By then the libraries lie there as they were proved; after its end `rt ci` gives the crates back
    what they had before, and then they would be proved once more. Only the calls are proved again: of
    a static library `rt ci` leaves nothing that could be compiled.
    """

    def __init__(self, room: str) -> None:
        self.log = Path(room) / "page.log"
        self.build: subprocess.Popen[bytes] | None = None

    def begin(self) -> None:
        """Begins to make it, where that was not yet begun."""
        if not self.build:
            PAGE.parent.mkdir(exist_ok=True)
            with open(self.log, "w", encoding="utf-8") as log:
                words = [sys.executable, str(PAGE_BUILD), "--proved", str(PAGE)]
                self.build = subprocess.Popen(words, stdout=log, stderr=subprocess.STDOUT)

    def failure(self) -> list[str]:
        """What it said where it could not be made."""
        if not self.build or self.build.wait() == 0:
            return []
        return ["FAILED: the page could not be made", *self.log.read_text().splitlines()[-20:]]


def library_failure() -> list[str]:
    """Makes the shared library, where a C compiler is found; answers what was said where that failed."""
    LIBRARY.unlink(missing_ok=True)
    if not shutil.which("cc"):
        return []
    words = ["sh", str(LINK), str(STATIC), str(LIBRARY)]
    done = subprocess.run(words, stdout=subprocess.PIPE, stderr=subprocess.STDOUT, text=True)
    return [] if done.returncode == 0 else ["FAILED: the library could not be made", done.stdout]


def proofs_passed_and_failed(progress: Progress, page: Page, room: str) -> tuple[int, int]:
    """Runs `rt ci`, shows what it prints, and answers its counts; a run with no counts is one
    failure. The page is begun where all that it stands on is proved."""
    command = [os.environ.get("RT", "rt"), "ci"]
    counts, has_ended = None, threading.Event()
    clock = threading.Thread(target=progress.show, args=(has_ended,), daemon=True)
    with subprocess.Popen(
        command,
        cwd=ROOT,
        env=environment(room),
        stdout=subprocess.PIPE,
        stderr=subprocess.STDOUT,
        text=True,
    ) as gate:
        assert gate.stdout
        clock.start()
        for line in gate.stdout:
            print(line, end="", flush=True)
            progress.hear(line)
            if progress.can_begin_page():
                page.begin()
            if found := COUNTS.match(line):
                counts = int(found[1]), int(found[2])
    has_ended.set()
    clock.join()
    passed, failed = counts or (0, 1)
    if gate.returncode != 0 and failed == 0:
        failed = 1
    return passed, failed


def commit() -> str:
    """The commit that is tested, and whether files differ from it."""
    words = ["git", "-C", str(ROOT)]
    found = [
        subprocess.run([*words, *more], capture_output=True, text=True).stdout.strip()
        for more in (["rev-parse", "--short", "HEAD"], ["status", "--porcelain"])
    ]
    return f"{found[0] or 'unknown'}{' with changes' if found[1] else ''}"


def last_run() -> str:
    """How long the last run here took, or else the one that the page of tests has, if it has one."""
    try:
        last = json.loads(TIMES.read_text())
        return (
            f"the last run here took {last['minutes']:.0f} min on {last['processors']} processors, "
            f"of commit {last['commit']} with {last['wrong_bodies']} wrong bodies"
        )
    except (OSError, ValueError, KeyError, TypeError):
        said = "no run here has passed yet"
        if measured := MEASURED.search(TESTS_PAGE.read_text()):
            said += f"; docs/TESTS.md has measured {measured[1]} min on {measured[2]}"
        return said


def begin(progress: Progress) -> None:
    """Says what the gate does, and how long it took before."""
    print(f"gate: {last_run()}; now there are {processors()} processors")
    crates, wrong = len(progress.wrong), sum(progress.wrong.values())
    print(f"gate: it proves {crates} crates and their tests from nothing,")
    print(f"gate: tries {wrong} wrong bodies, and runs the program and the tests", flush=True)


def take_program() -> None:
    """Copies the program that `rt ci` built to where it is run from."""
    PROGRAM.parent.mkdir(exist_ok=True)
    shutil.copy(LINKED, PROGRAM)


def show_loudly(lines: list[str]) -> None:
    """Says at the end what was not tested, and what failed."""
    if lines:
        print(f"\n{'!' * 70}", *lines, f"{'!' * 70}\n", sep="\n", flush=True)


def loudly(skipped: list[str]) -> list[str]:
    """A line for each thing that was skipped."""
    return [f"SKIPPED: {what}" for what in skipped]


def run_all() -> tuple[int, int, list[str]]:
    """Runs it all; answers how many passed and failed, and what is to be said loudly of it."""
    with tempfile.TemporaryDirectory(prefix="station_check-gate-") as room:
        # The program and the tests are run below it by a user who owns nothing.
        os.chmod(room, 0o711)
        progress, page = Progress(), Page(room)
        begin(progress)
        passed, failed = proofs_passed_and_failed(progress, page, room)
        print(f"gate: rt ci took {progress.minutes():.0f} min", *progress.times(), sep="\n")
        print(progress.refusals(), flush=True)
        failures = [*progress.failed, *page.failure()]
        # (the page's build is over here)
        failures += [] if failures else library_failure()
    if failures or failed:
        skipped = [*progress.notes, "all tests of the command line, since what they run failed"]
        return passed, max(failed, 1), [*loudly(skipped), *failures]
    take_program()
    counts = command_line.run()
    if counts.failed == 0:
        kept = progress.kept()
        TIMES.write_text(json.dumps(kept, indent=1) + "\n")
        print(f"gate: the whole took {kept['minutes']:.0f} min; {TIMES.name} keeps the times")
    return passed + counts.passed, counts.failed, loudly(progress.notes + counts.skipped)


def main() -> int:
    if sys.version_info < (3, 10):
        sys.exit("the gate needs Python 3.10 or later: name it as PYTHON=/path/to/python3")
    passed, failed, said = run_all()
    show_loudly(said)
    print(f"{passed} passed, {failed} failed", flush=True)
    return 0 if failed == 0 and passed > 0 else 1


if __name__ == "__main__":
    sys.exit(main())
