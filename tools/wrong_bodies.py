"""Tries all wrong bodies of crates: `python3 tools/wrong_bodies.py [CRATE..] [--jobs N]`.

A wrong body is an edit of a crate's code with which the prover must refuse the crate. Those in its
folder must-fail are tried by the gate too, those in wrong-bodies here alone. The judge of both is
`rt must-fail`, which reads must-fail alone: so it is run in a copy of the crates outside of the
repository, where all the edits lie in that folder. Crates are tried side by side.

`make wrong-bodies` calls it, and has proved these crates and those below them before: the copy is
given the libraries that it made, and they are not proved again.
"""

import argparse
import re
import shutil
import subprocess
import sys
import tempfile
from concurrent.futures import ThreadPoolExecutor, as_completed
from pathlib import Path
from typing import Iterable, Iterator, NamedTuple

import prove

CRATES = prove.ROOT / "crates"

# The folders of a crate that have wrong bodies: the one that rt reads, so the gate tries those, and
# the other.
TRIED = "must-fail"
FOLDERS = [TRIED, "wrong-bodies"]

# Of each crate below the folder that it is run in, prints the sum of all that its library is made
# from. Where that sum lies beside a library, rt takes the library; else it proves the crate anew.
# (A sum is made of those of the crates below, again and again: each is kept.)
SUMS = """\
import functools, os, sys
sys.dont_write_bytecode = True
sys.path.insert(0, sys.argv[1])
import rtlib
rtlib.Crate.stamp = functools.lru_cache(None)(rtlib.Crate.stamp)
for crate in rtlib.crates_below(os.getcwd()):
    print(crate.name, crate.stamp())
"""

# What `rt must-fail` says of an edit, and what it says first of one that is refused as it must be.
SAID = re.compile(r"^rt: must-fail (\w+/[\w.-]+)\.edit: (.*)$", re.MULTILINE)
REFUSED = "refused, as it must be"

# Refused in a proof: because that names what the edit took away, or since an answer that is written
# by hand is none of the edited code. A right body of another form would be refused so too.
FOR_A_NAME = re.compile(re.escape(f"{REFUSED} (only because a proof file names"))
AT_A_PROOF = re.compile(re.escape(REFUSED) + r": (\./)?proofs/")


class Answer(NamedTuple):
    """What was said of a wrong body."""

    edit: str  # CRATE/NAME
    said: str

    def line(self) -> str:
        return f"{self.edit}: {self.said}"

    def is_refused(self) -> bool:
        return self.said.startswith(REFUSED)


def edits(crate: Path) -> list[Path]:
    """The wrong bodies of a crate, those of both folders."""
    return [edit for folder in FOLDERS for edit in sorted((crate / folder).glob("*.edit"))]


def copy_crates(to: Path) -> None:
    """Copies all crates there, each with all its wrong bodies in the folder that rt reads."""
    shutil.copy(prove.ROOT / "crates.txt", to)
    for name in prove.libraries(prove.ROOT):
        crate, copy = CRATES / name, to / "crates" / name
        for part in ("src", "specs", "proofs"):
            if (crate / part).is_dir():
                shutil.copytree(crate / part, copy / part)
        (copy / TRIED).mkdir()
        for edit in edits(crate):
            shutil.copy(edit, copy / TRIED)


def sums(folder: Path) -> dict[str, str]:
    """The sum by which rt knows what the library of each crate below a folder is made from."""
    words = [sys.executable, "-c", SUMS, str(prove.kit_of(prove.RT) / "bin")]
    said = subprocess.run(words, cwd=folder, check=True, stdout=subprocess.PIPE, text=True)
    return dict(line.split() for line in said.stdout.splitlines())


def give_libraries(to: Path, names: Iterable[str]) -> None:
    """Gives the copy the libraries that are made of these crates, as rt would have left them."""
    found = sums(to)
    for name in names:
        if not prove.made(name).exists():
            sys.exit(f"wrong bodies: {name} is not proved; `make wrong-bodies` proves it")
        room = to / "crates" / name / "out" / "rlib"
        shutil.copytree(prove.made(name), room / f"{name}.rlib")
        (room / "stamp").write_text(found[name])


def answers(copy: Path, crate: str) -> list[Answer]:
    """Tries all wrong bodies of a crate in the copy, and answers what rt says of each."""
    ran = subprocess.run(
        [prove.RT, "must-fail", crate],
        cwd=copy,
        stdin=subprocess.DEVNULL,
        stdout=subprocess.PIPE,
        stderr=subprocess.STDOUT,
        text=True,
    )
    said = dict(SAID.findall(ran.stdout))
    names = [f"{crate}/{edit.stem}" for edit in edits(CRATES / crate)]
    last = " ".join(ran.stdout.splitlines()[-3:])
    return [Answer(name, said.get(name, f"NOT TRIED: {last}")) for name in names]


def tried(copy: Path, crates: list[str], jobs: int) -> Iterator[list[Answer]]:
    """Tries the crates side by side, those with the most wrong bodies first; gives what came of a
    crate when it has ended."""
    with ThreadPoolExecutor(jobs) as pool:
        most_first = sorted(crates, key=lambda crate: -len(edits(CRATES / crate)))
        tasks = [pool.submit(answers, copy, crate) for crate in most_first]
        for task in as_completed(tasks):
            yield task.result()


def show(title: str, found: list[Answer]) -> None:
    """Lists answers again, where there are any."""
    if found:
        print(f"\n{title}: {len(found)}", *(answer.line() for answer in found), sep="\n  ")


def try_all(crates: list[str], jobs: int) -> int:
    """Tries all wrong bodies of these crates; answers the status."""
    named, all_said = prove.libraries(prove.ROOT), list[Answer]()
    below = set[str]().union(*(prove.below(crate, named) for crate in crates))
    with tempfile.TemporaryDirectory(prefix="station_check-wrong-bodies-") as room:
        copy_crates(Path(room))
        give_libraries(Path(room), sorted(below))
        count = sum(len(edits(CRATES / crate)) for crate in crates)
        begun = f"crates: {len(crates)}, wrong bodies: {count}; a crate answers at its end"
        print(begun, flush=True)
        for said in tried(Path(room), crates, jobs):
            print(*(answer.line() for answer in said), sep="\n", flush=True)
            all_said += said
    failed = [answer for answer in all_said if not answer.is_refused()]
    show("refused in a proof alone", [each for each in all_said if AT_A_PROOF.match(each.said)])
    show("refused only for a name", [each for each in all_said if FOR_A_NAME.match(each.said)])
    show("not refused", failed)
    print(f"{len(all_said) - len(failed)} refused, {len(failed)} failed", flush=True)
    return 1 if failed or not all_said else 0


def main() -> int:
    every = [name for name in prove.libraries(prove.ROOT) if edits(CRATES / name)]
    words = argparse.ArgumentParser(description="Tries all wrong bodies of crates.")
    words.add_argument("crates", metavar="CRATE", nargs="*", help="one; none: all that have any")
    words.add_argument("--jobs", type=int, default=1, help="how many crates are tried side by side")
    asked = words.parse_args()
    if unknown := set(asked.crates) - set(every):
        words.error(f"no wrong bodies are kept for {', '.join(sorted(unknown))}")
    return try_all(list(dict.fromkeys(asked.crates)) or every, asked.jobs)


if __name__ == "__main__":
    sys.exit(main())
