"""The commands that a page of docs shows, and what they print.

A fenced block `console` has commands, each after `$ `, and under each what it prints on standard
output and standard error; a line `..` stands for any number of lines. A backslash at the end of a
line continues a command. The commands of all pages are run one after the other by one shell, in the
order in which the pages are read: README.md calls the program and makes the folder for the others.
"""

import os
import re
import shlex
import subprocess
import sys
import tempfile
from pathlib import Path
from shutil import copytree
from typing import Iterator, NamedTuple

from program import PROGRAM, ROOT

BLOCK = re.compile(r"^```console\n(.*?)^```$", re.DOTALL | re.MULTILINE)
COMMAND = re.compile(r"(.*\\\n)*.*")  # its lines but the last end with a backslash
END = "the end of a command of this page"
SKIPPED = "..\n"

# The pages that show commands, in the order in which they are read.
SHOWN = [Path("README.md"), *(Path("docs", f"{name}.md") for name in ("GUIDE", "MARK", "TABLES", "SHEETS"))]

# More than all pages take, in seconds.
TIME = 120


class Step(NamedTuple):
    command: str
    printed: str  # as the page has it

    def fits(self, printed: str) -> bool:
        """Whether this is what the page shows."""
        parts = self.printed.split(SKIPPED)
        pattern = "(?:.*\n)*".join(map(re.escape, parts))
        return re.fullmatch(pattern, printed) is not None


def steps_of(block: str) -> Iterator[Step]:
    """The commands of a block with what it shows under each."""
    for part in re.split(r"^\$ ", block, flags=re.MULTILINE)[1:]:
        matched = COMMAND.match(part)
        assert matched, part
        command = matched.group()
        yield Step(command, part.removeprefix(command).removeprefix("\n"))


def page_steps(page: str) -> list[Step]:
    return [step for block in BLOCK.findall(page) for step in steps_of(block)]


def tools(folder: Path, program: Path = PROGRAM) -> Path:
    """A folder with the program and with the Python of this run, by the names that pages use."""
    folder.mkdir()
    (folder / "station_check").symlink_to(program.resolve())
    python = folder / "python3"
    python.write_text(f'#!/bin/sh\nexec {shlex.quote(sys.executable)} "$@"\n')
    python.chmod(0o755)
    return folder


def environment_of(folder: Path) -> dict[str, str]:
    """The environment of commands that find these tools first."""
    path = f"{folder}{os.pathsep}{os.environ['PATH']}"
    return {**os.environ, "PATH": path, "LC_ALL": "C", "PYTHONDONTWRITEBYTECODE": "1"}


def printed_by(steps: list[Step], folder: Path, program: Path = PROGRAM) -> list[str]:
    """What each command prints, in a folder that has what a page works on."""
    script = "".join(
        f"{{ {step.command}\n}} 2>&1\nstatus=$?; echo '{END}'; (exit $status)\n" for step in steps
    )
    with tempfile.TemporaryDirectory() as top:
        environment = environment_of(tools(Path(top) / "bin", program))
        run = {"cwd": folder, "env": environment, "stdin": subprocess.DEVNULL}
        done = subprocess.run(["bash", "-c", script], capture_output=True, timeout=TIME, **run)  # type: ignore
    printed = done.stdout.decode().replace("\r\n", "\n").split(f"{END}\n")
    assert len(printed) == len(steps) + 1, (printed[-1], done.stderr)
    return printed[:-1]


def answers_in(
    folder: Path, texts: dict[Path, str], program: Path = PROGRAM
) -> dict[Path, list[tuple[Step, str]]]:
    """Of each page its commands, and what they print now in a folder with the examples."""
    steps = {page: page_steps(text) for page, text in texts.items()}
    printed = iter(printed_by([step for each in steps.values() for step in each], folder, program))
    return {page: [(step, next(printed)) for step in each] for page, each in steps.items()}


def checked() -> dict[Path, list[tuple[Step, str]]]:
    """Of each page its commands, and what they print now: as in a clone after `make run`."""
    with tempfile.TemporaryDirectory() as top:
        folder = Path(top)
        copytree(ROOT / "examples", folder / "examples")
        (folder / "build").mkdir()
        (folder / "build" / PROGRAM.name).symlink_to(PROGRAM.resolve())
        return answers_in(folder, {page: (ROOT / page).read_text() for page in SHOWN})
