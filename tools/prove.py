"""Proves a crate from nothing, over the crates that it stands on: `python3 tools/prove.py CRATE [--jobs N]`.

`make run` calls it for each crate, lowest first. Of a library it leaves in build/made what crates above
can cite: the statements, and not their proofs, as `rt ci` has it too. `rt lib` keeps the proofs, with which
its next check begins, but each crate above loads them all, which takes it up to twice as long. Of a
program it leaves the program there.
"""

import argparse
import os
import re
import subprocess
import sys
from pathlib import Path
from typing import Callable, Iterator

ROOT = Path(__file__).resolve().parent.parent
RT = os.environ.get("RT", "rt")

# Where what is made of the crates lies.
MADE = ROOT / "build" / "made"

# What a program is compiled for, and the parts of the kit in C that it is linked with.
TARGET = "x86_64-unknown-linux-gnu"
OF_C = ["libos_c.a", "liblibc_c.a"]


def libraries(root: Path) -> dict[str, list[str]]:
    """The libraries that each crate of a repository names."""
    lines = (root / "crates.txt").read_text().splitlines()
    rows = [re.match(r"(\w+)[^:]*:(.*)", line) for line in lines if not line.startswith("#")]
    return {row[1]: row[2].split() for row in rows if row}


def below(crate: str, named: dict[str, list[str]]) -> set[str]:
    """The crates of its repository that a crate stands on, however far."""
    found = {name for name in named[crate] if name in named}
    return found.union(*(below(name, named) for name in found))


def kit_of(rt: str) -> Path:
    """The folder of the toolchain."""
    said = subprocess.run([rt, "doc"], check=True, capture_output=True, text=True)
    return Path(said.stdout.strip()).parent


def made(name: str) -> Path:
    """The library that is made of a crate."""
    return MADE / f"{name}.rlib"


def is_program(crate: Path) -> bool:
    """Whether a crate is a program, and no library."""
    return (crate / "src" / "main.rt").exists()


def words_of(kit: Path, crate: Path, built: Callable[[str], Path]) -> Iterator[str]:
    """What rattle is told of a crate, where the libraries of the repository are built there."""
    named = libraries(crate.parent.parent)
    stands_on = sorted(below(crate.name, named))
    root = "src/main.rt" if is_program(crate) else "src/lib.rt"
    yield from ["--crate-name", crate.name, root, "--extern", f"std={kit}/rlibs/std.rlib"]
    for name in named[crate.name]:
        library = built(name) if name in named else kit / "rlibs" / f"{name}.rlib"
        yield from ["--extern", f"{name}={library}"]
    for folder in dict.fromkeys([kit / "rlibs", *(built(name).parent for name in stands_on)]):
        yield from ["-L", f"dependency={folder}"]
    yield from ["--antt-project", f"{kit}/rattle/logic/antt-project.json"]
    yield from ["--logic-built", f"{kit}/logic_built", "--links", f"{crate.name}="]


def run(folder: Path, *command: str | Path) -> int:
    """The status of a command that is run in this folder."""
    return subprocess.run(command, cwd=folder, stdin=subprocess.DEVNULL).returncode


def prove(crate: Path, jobs: int) -> int:
    """Proves a crate and makes its library or its program; answers the status."""
    kit = kit_of(RT)
    words: list[str | Path] = [kit / "bin" / "rattle", "build"]
    words += [*words_of(kit, crate, made), "--jobs", str(jobs)]
    if not is_program(crate):
        return run(crate, *words, "--statements", "-o", made(crate.name))
    toolchain, code, program = kit / "toolchain", MADE / f"{crate.name}.o", MADE / crate.name
    status = run(crate, *words, "--toolchain", toolchain, "-o", code)
    link: list[str | Path] = [kit / "bin" / "rattle-link", "--target", TARGET, "--toolchain", toolchain]
    link += ["-o", program, code, *(kit / "c" / part for part in OF_C)]
    return status or run(crate, *link)


def main() -> int:
    words = argparse.ArgumentParser(description="Proves a crate over the statements of those below it.")
    words.add_argument("crate", metavar="CRATE")
    words.add_argument("--jobs", type=int, default=1, help="processes that share the proof")
    asked = words.parse_args()
    MADE.mkdir(parents=True, exist_ok=True)
    return prove(ROOT / "crates" / asked.crate, asked.jobs)


if __name__ == "__main__":
    sys.exit(main())
