"""The built program, run as a user runs it. Each run and each test has an end."""

import os
import signal
import subprocess
import tempfile
import time
import unittest
from concurrent.futures import ThreadPoolExecutor
from dataclasses import dataclass, field
from pathlib import Path
from typing import Any, Callable, Iterable, Iterator, NoReturn, Sequence, TypeVar

ROOT = Path(__file__).resolve().parents[2]
PROGRAM = Path(os.environ.get("STATION_CHECK", ROOT / "build" / "station_check"))
EXAMPLE = ROOT / "examples" / "station_s1.gsi"
EXAMPLE_SHEET = ROOT / "examples" / "station_s1.csv"
EXAMPLE_TABLE = ROOT / "examples" / "station_s1_directions.csv"

# Of a run: its exit status, standard output and standard error.
Answer = tuple[int, bytes, bytes]

T = TypeVar("T")

# Whether whole sweeps are run, and not samples of them.
SWEEP = "SWEEP" in os.environ

# More than any run takes, and more than any test takes, in seconds.
TIME = 60
TIME_OF_A_TEST = 7_200 if SWEEP else 600


@dataclass
class Run:
    """One run: what it is given, and what it must answer.

    `{file}` and `{sheet}` in the arguments are the paths of `file` and `sheet`, which may be a table
    of directions."""

    name: str
    args: list[str] = field(default_factory=list)
    stdin: bytes = b""
    file: bytes | None = None
    sheet: bytes | None = None
    stdout: bytes = b""
    stderr: bytes = b""
    status: int = 0


def answer_to(command: Sequence[str | bytes | Path], **options: Any) -> Answer:
    """The status, standard output and standard error of a command."""
    done = subprocess.run(command, capture_output=True, timeout=TIME, **options)
    return done.returncode, done.stdout, done.stderr


def answer_of(args: Iterable[str | bytes | Path], stdin: bytes | None = b"", **options: Any) -> Answer:
    """The answer of a run of the program."""
    return answer_to([PROGRAM, *args], input=stdin, **options)


def answer_in_shell(script: str, *args: str | bytes | Path) -> Answer:
    """The answer of a script of the shell, in which "$@" is the program and its words."""
    return answer_to(["bash", "-c", script, "bash", PROGRAM, *args])


def side_by_side(call: Callable[..., T], *given: Iterable[Any]) -> Iterator[T]:
    """What a call answers to each that it is given, in their order, several at a time."""
    pool = ThreadPoolExecutor(os.cpu_count())
    try:
        yield from pool.map(call, *given)
    finally:
        # (without waiting: where not all was asked for, this is called while garbage is collected,
        # perhaps by a thread of a pool, which would wait for itself)
        pool.shutdown(wait=False, cancel_futures=True)


def until(is_so: Callable[[], object]) -> None:
    """Waits until something is so, and fails where it does not become so in time."""
    end = time.monotonic() + TIME
    while not is_so():
        if time.monotonic() > end:
            raise TimeoutError(f"it is not so after {TIME} s")
        time.sleep(0.005)


def too_long(*_: object) -> NoReturn:
    raise TimeoutError(f"the test takes more than {TIME_OF_A_TEST} s")


class TimedTest(unittest.TestCase):
    """Tests that end: one that waits for what never comes has failed."""

    def run(self, result: unittest.TestResult | None = None) -> unittest.TestResult | None:
        signal.signal(signal.SIGALRM, too_long)
        signal.alarm(TIME_OF_A_TEST)
        try:
            return super().run(result)
        finally:
            signal.alarm(0)


class ProgramTest(TimedTest):
    """Tests that run the program in a folder of their own."""

    maxDiff = None

    def setUp(self) -> None:
        folder = tempfile.TemporaryDirectory()
        self.addCleanup(folder.cleanup)
        self.folder = Path(folder.name)

    def check(self, runs: Iterable[Run]) -> None:
        """Makes each run of a table, and compares status, standard output and standard error to the byte."""
        for run in runs:
            with self.subTest(run.name):
                paths = {"file": self.folder / "field.gsi", "sheet": self.folder / "sheet.csv"}
                for name, path in paths.items():
                    if (given := getattr(run, name)) is not None:
                        path.write_bytes(given)
                args = [arg.format(**paths) for arg in run.args]
                status, stdout, stderr = answer_of(args, run.stdin)
                self.assertEqual((run.status, run.stdout, run.stderr), (status, stdout, stderr))
