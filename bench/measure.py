"""What a command takes: time, memory and instructions; and what else the machine does meanwhile."""

import os
import re
import subprocess
import sys
import time
from pathlib import Path
from typing import Sequence

# The words of a command, the first of them the program.
Command = Sequence[str | Path]

# Where the system tells how long its processors were busy, and the times there that are no work:
# idle, and waiting for a disk. Those of guests are in the user's.
STAT = Path("/proc/stat")
WORK = ("user", "nice", "system", "idle", "iowait", "irq", "softirq", "steal")
NO_WORK = ("idle", "iowait")

# A line of callgrind_annotate: instructions, how many of a hundred, and the function.
SHARE = re.compile(r"^ *[\d,]+ \( *([\d.]+)%\)  [^:]*:(.+?)(?:::<#\w+>)? \[", re.MULTILINE)


class OtherWork:
    """The work of other processes from now on."""

    def __init__(self) -> None:
        self.start = time.monotonic()
        self.busy = self.seconds()

    def seconds(self) -> float:
        """For how long processors were busy with it."""
        try:
            ticks = map(int, STAT.read_text().splitlines()[0].split()[1:])
        except (OSError, IndexError, ValueError):
            return 0
        busy = sum(one for name, one in zip(WORK, ticks) if name not in NO_WORK)
        return busy / os.sysconf("SC_CLK_TCK") - sum(os.times()[:4])

    def processors(self) -> float:
        """How many processors it has kept busy, on the average."""
        return max(0, self.seconds() - self.busy) / (time.monotonic() - self.start)


def run(command: Command, may_refuse: bool = False) -> float:
    """Runs a command; answers how long it took, in milliseconds."""
    null = subprocess.DEVNULL
    stderr = null if may_refuse else None
    start = time.perf_counter_ns()
    done = subprocess.run(command, close_fds=False, stdin=null, stdout=null, stderr=stderr)
    took = time.perf_counter_ns() - start
    if done.returncode > may_refuse or done.returncode < 0:
        sys.exit(f"{' '.join(map(str, command))}: status {done.returncode}")
    return took / 1e6


def printed(command: Command) -> bytes:
    """What a command prints."""
    null, pipe = subprocess.DEVNULL, subprocess.PIPE
    return subprocess.run(command, stdin=null, stdout=pipe, check=True).stdout


def least_times(
    commands: Sequence[Command], turns: int, may_refuse: bool = False
) -> list[float]:
    """The least time of each command; they take turns, and another one begins each round."""
    times: list[list[float]] = [[] for _ in commands]
    for turn in range(turns):
        for place in range(len(commands)):
            which = (turn + place) % len(commands)
            times[which].append(run(commands[which], may_refuse))
    return [min(of_one) for of_one in times]


def memory(command: Command, folder: Path, may_refuse: bool = False) -> tuple[int, int]:
    """The most memory that a run of a command held, in KB, and how many pages were brought in. A
    small program has to start it: the kernel counts what its parent held, too."""
    log = folder / "time.log"
    run(["time", "--quiet", "--format=%M %R %F", f"--output={log}", *command], may_refuse)
    most, *pages = map(int, log.read_text().split())
    return most, sum(pages)


def instructions(command: Command, folder: Path, may_refuse: bool = False) -> int:
    """How many instructions a command runs."""
    log = folder / "valgrind.log"
    tool = ["valgrind", "--tool=cachegrind", "--cache-sim=no", "--cachegrind-out-file=/dev/null"]
    run([*tool, f"--log-file={log}", *command], may_refuse)
    found = re.search(r"I +refs: +([\d,]+)", log.read_text())
    assert found, "valgrind has counted nothing"
    return int(found[1].replace(",", ""))


def shares(command: Command, folder: Path) -> list[tuple[str, float]]:
    """The functions in which a command runs most of its instructions, and how many in a hundred."""
    counts = folder / "callgrind.out"
    counts.unlink(missing_ok=True)
    log = ["--log-file=/dev/null", f"--callgrind-out-file={counts}"]
    run(["valgrind", "--tool=callgrind", *log, *command], may_refuse=True)
    said = printed(["callgrind_annotate", counts]).decode()
    return [(name, float(share)) for share, name in SHARE.findall(said)]
