"""What the program explains of each fault."""

import re
import subprocess
from pathlib import Path
from typing import NamedTuple

ROOT = Path(__file__).resolve().parents[1]
PROGRAM = ROOT / "build" / "station_check"


class Listed(NamedTuple):
    name: str
    meaning: str


class Explanation(NamedTuple):
    names: list[str]
    meaning: str
    when: str
    example: str
    remedy: str


def printed(program: Path, *words: str) -> str:
    return subprocess.run([program, "explain", *words], check=True, capture_output=True, text=True).stdout


def listed(program: Path) -> list[Listed]:
    """The names of all faults with their meanings, as the program lists them."""
    lines = printed(program).splitlines()
    return [Listed(*re.split(r" {2,}", line, maxsplit=1)) for line in lines]


def parsed(text: str) -> Explanation:
    """An explanation that the program printed."""
    head, when, example, remedy = text.rstrip("\n").split("\n\n")
    names, meaning = head.split(": ", 1)
    return Explanation(names.split(", "), meaning, when, example.strip(), remedy.removeprefix("What to do: "))


def explanation_of(program: Path, name: str) -> Explanation:
    return parsed(printed(program, name))


def sentence(text: str) -> str:
    return f"{text[0].upper()}{text[1:]}."
