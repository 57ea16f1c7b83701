"""Runs a program over the cases of this folder; README.md says what a case is."""

import argparse
import os
import shlex
import shutil
import signal
import subprocess
import sys
import tempfile
from pathlib import Path
from shutil import copytree
from typing import Iterable, NamedTuple

FOLDER = Path(__file__).resolve().parent

# More than any case takes, in seconds.
TIME = 60


# The exit status of a mistake on the command line.
MISTAKEN = 2

# Status, standard output, standard error.
Answer = tuple[int, bytes, bytes]


class Case(NamedTuple):
    folder: Path
    args: list[str]
    stdin: bytes
    expected: Answer
    is_free: bool  # a mistake, for which a program has words of its own

    @property
    def name(self) -> str:
        return self.folder.name

    def takes(self, found: Answer | None) -> bool:
        """Whether a program answered as the case says."""
        stated = 2 if self.is_free else 3
        return found is not None and found[:stated] == self.expected[:stated]


def content(folder: Path, name: str) -> bytes:
    """The bytes of a file of a case; none where it isn't there."""
    return (folder / name).read_bytes() if (folder / name).exists() else b""


def case_in(folder: Path) -> Case:
    status = int(content(folder, "status") or b"0")
    expected = status, content(folder, "stdout"), content(folder, "stderr")
    is_free = status == MISTAKEN and not (folder / "stderr").exists()
    args = content(folder, "args").decode().splitlines()
    return Case(folder, args, content(folder, "stdin"), expected, is_free)


def folders() -> dict[str, Path]:
    """The folder of each case by its name, in the order of names."""
    found = sorted(path.parent for path in FOLDER.rglob("args"))
    return {folder.name: folder for folder in sorted(found, key=lambda folder: folder.name)}


def cases(chosen: Iterable[str] = ()) -> list[Case]:
    of = folders()
    return [case_in(of[name]) for name in sorted(chosen) or of]


def answer(command: Iterable[str | Path], case: Case, time: float = TIME) -> Answer | None:
    """What a program answers in a copy of the case's folder; None where it takes longer.

    `command` is the program and what stands before the words of the case."""
    with tempfile.TemporaryDirectory() as top:
        folder = copytree(case.folder, Path(top) / "case")
        run = subprocess.Popen(
            [*command, *case.args],
            cwd=folder,
            start_new_session=True,
            stdin=subprocess.PIPE,
            stdout=subprocess.PIPE,
            stderr=subprocess.PIPE,
        )
        try:
            stdout, stderr = run.communicate(case.stdin, timeout=time)
        except subprocess.TimeoutExpired:
            os.killpg(run.pid, signal.SIGKILL)
            run.communicate()
            return None
    return run.returncode, stdout, stderr


# ---------------------------------------------------------------- the command line


def program(text: str) -> list[str]:
    """The command of a program: a path, a name on the search path, or one of them with arguments.
    Paths are made absolute, since each case runs in a folder of its own."""
    words = [text] if shutil.which(text) else shlex.split(text)
    found = shutil.which(words[0]) if words else None
    if found is None:
        raise argparse.ArgumentTypeError(f"no program {text} is found")
    absolute = [os.path.abspath(word) if os.path.exists(word) else word for word in words[1:]]
    return [os.path.abspath(found), *absolute]


def command_line() -> argparse.ArgumentParser:
    parser = argparse.ArgumentParser(
        description="Runs a program over the cases of this folder, and prints what differs.",
        epilog="Exit status: 0 all passed, 1 not all, 2 a mistake on the command line.",
    )
    parser.add_argument(
        "program",
        metavar="PROGRAM",
        type=program,
        help="a path, a name on the search path, or a command in quotes, as 'python3 model.py'",
    )
    parser.add_argument("cases", metavar="CASE", nargs="*", help="these cases, not all")
    seconds = f"seconds for a case (default: {TIME})"
    parser.add_argument("--time", metavar="S", type=float, default=TIME, help=seconds)
    return parser


def said(found: Answer | None, time: float) -> str:
    """What is printed of an answer."""
    return f"no answer in {time:g} s" if found is None else str(found)


def main() -> None:
    parser = command_line()
    asked = parser.parse_intermixed_args()
    if unknown := sorted(set(asked.cases) - set(folders())):
        parser.error(f"no case {', '.join(unknown)}")
    every, failed = cases(asked.cases), 0
    for case in every:
        found = answer(asked.program, case, asked.time)
        if not case.takes(found):
            failed += 1
            print(f"{case.name}\n  expected {case.expected}\n  found    {said(found, asked.time)}")
    print(f"{len(every) - failed} passed, {failed} failed")
    sys.exit(1 if failed else 0)


if __name__ == "__main__":
    main()
