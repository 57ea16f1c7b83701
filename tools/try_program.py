"""Shows what the program answers on an example, with no proof: `python3 tools/try_program.py`.

`make try` calls it. The toolchain builds the program once, with tests of each index and each sum in
place of proofs, runs it for each command in a folder of its own, and keeps nothing.
"""

import os
import re
import shutil
import subprocess
import sys
import tempfile
from pathlib import Path

ROOT = Path(__file__).resolve().parent.parent
PROGRAM_CRATE = ROOT / "crates" / "station_program"

FIELD_FILE = "examples/station_p7.gsi"
TABLE = "examples/station_p7_directions.csv"
SHEET = "examples/station_p7.csv"
LIST_FILE = "examples/station_s1.gsi"

# A table in which one direction is off, and what is replaced in it.
WRONG = "wrong.csv"
RIGHT_DIRECTION, WRONG_DIRECTION = "278.86059", "278.86065"

# What the program is asked, and the status with which it ends.
COMMANDS = [
    (f"directions {FIELD_FILE} P7", 0),
    (f"compare {FIELD_FILE} P7 {TABLE}", 0),
    (f"compare {FIELD_FILE} P7 {WRONG}", 1),
    (f"check {FIELD_FILE} {SHEET}", 0),
    (f"list {LIST_FILE}", 0),
]

BEFORE = f"""\
make try: nothing is proved by this. The program is built as it stands, and asked five
make try: things; that takes 1 to 3 minutes, in which nothing is printed. {WRONG} is the
make try: example's table with {WRONG_DIRECTION} in place of {RIGHT_DIRECTION}, 0.06 mgon too much.
"""
AFTER = """
make try: nothing was proved: `make run` proves the program, and keeps it."""


def asked(room: Path) -> list[str]:
    """What `rt try` is told: a folder of cases, numbered from 1, and the files that they read."""
    cases = room / "cases"
    cases.mkdir()
    for number, (words, _) in enumerate(COMMANDS, 1):
        (cases / f"{number}").touch()
        (cases / f"{number}.args").write_text("".join(f"{word}\n" for word in words.split()))
    (room / WRONG).write_text((ROOT / TABLE).read_text().replace(RIGHT_DIRECTION, WRONG_DIRECTION))
    files = {name: ROOT / name for name in (FIELD_FILE, TABLE, SHEET, LIST_FILE)}
    named = [f"{name}={path}" for name, path in {**files, WRONG: room / WRONG}.items()]
    return ["--cases", str(cases), *(word for one in named for word in ("--data", one))]


def answers(printed: str, complained: str) -> list[tuple[int, str]]:
    """The status of each case that ended, and what it wrote to both of its streams."""
    outputs = dict(re.findall(r"^== (\d+)\n((?:(?!== \d+$).*\n)*)", printed, re.MULTILINE))
    ends = re.findall(r"((?:(?!case=).*\n)*)case=(\d+) run=ended status=(\d+) .*\n", complained)
    return [(int(status), outputs.get(number, "") + said) for said, number, status in ends]


def main() -> int:
    print(BEFORE, flush=True)
    rt = os.path.abspath(shutil.which(os.environ.get("RT", "rt")) or "rt")
    with tempfile.TemporaryDirectory(prefix="station_check-try-") as room:
        run = subprocess.run(
            [rt, "try", *asked(Path(room))], cwd=PROGRAM_CRATE, capture_output=True, text=True
        )
    found = answers(run.stdout, run.stderr)
    is_well = run.returncode == 0 and [one for one, _ in found] == [one for _, one in COMMANDS]
    if is_well:
        for (words, _), (_, said) in zip(COMMANDS, found):
            print(f"$ station_check {words}\n{said}", end="")
        print(*re.findall(r"^cases=.*$", run.stderr, re.MULTILINE), sep="\n")
    else:
        print(run.stdout, run.stderr, "make try: FAILED: it does not answer as it should", sep="\n")
    print(AFTER)
    return 0 if is_well else 1


if __name__ == "__main__":
    sys.exit(main())
