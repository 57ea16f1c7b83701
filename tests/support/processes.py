"""What a process does, as the system tells it."""

import array
import fcntl
import re
import resource
import termios
from functools import partial
from pathlib import Path
from subprocess import Popen
from typing import IO, Callable

Process = Popen[bytes]


def in_room(room: int) -> Callable[[], None]:
    """What a process does before it begins, to have so many bytes of address space."""
    return partial(resource.setrlimit, resource.RLIMIT_AS, (room, room))


def unread(pipe: IO[bytes]) -> int:
    """How many bytes stand in a pipe."""
    count = array.array("i", [0])
    fcntl.ioctl(pipe, termios.FIONREAD, count)
    return count[0]


def state_of(run: Process) -> str:
    """The letter that the system has for what a process does: S where it waits, T where it was
    stopped."""
    return Path(f"/proc/{run.pid}/stat").read_text().rpartition(")")[2].split()[0]


def wants_more(run: Process) -> bool:
    """Whether a process has read all that was written to its standard input, and waits."""
    assert run.stdin
    return state_of(run) == "S" and not unread(run.stdin)


def peak(run: Process) -> int:
    """The most address space that a process has had so far, in kibibytes."""
    found = re.search(r"VmPeak:\s*(\d+)", Path(f"/proc/{run.pid}/status").read_text())
    assert found, "a process that has ended"
    return int(found[1])
