"""Makes the manual pages of the tools in examples/ from what they say of themselves, and gives each
manual page the version and its day: `python3 tools/manuals.py`.

A tool is a script of examples/ that an office uses; it is installed under a name of its own. The
version and its day stand in the first heading of CHANGELOG.md.
"""

import argparse
import importlib
import re
import sys
from pathlib import Path
from types import ModuleType
from typing import Iterator

from man import MAN_PAGE, ROOT, escaped, man_text

EXAMPLES = ROOT / "examples"
CHANGES = ROOT / "CHANGELOG.md"

# Each tool, what its page says that it does, and the document that shows it.
TOOLS = {
    "adjust": ("adjust a station by least squares, and write its sheet", "SHEETS.md"),
    "check_folder": ("check the sheets and tables of a folder", "GUIDE.md"),
    "prepare": ("leave out or rename blocks of a copy, or put codes in", "GUIDE.md"),
    "residuals": ("draw the residuals of a station", "GUIDE.md"),
}

RELEASE = re.compile(r"^## ([0-9.]+), ([0-9-]+)\b", re.MULTILINE)
TITLE = re.compile(r"^\.TH .*$", re.MULTILINE)
OPTION = re.compile(r"^  (\S.*?)(?: {2,}(\S.*))?$", re.MULTILINE)
END = "Exit status: "


class Wide(argparse.HelpFormatter):
    """Help with each option on one line, whatever its length."""

    def __init__(self, prog: str):
        super().__init__(prog, max_help_position=200, width=10_000)


def name_of(script: str) -> str:
    """The name under which a script is installed."""
    return f"station_check_{script.removeprefix('check_')}"


def release() -> tuple[str, str]:
    """The version, and its day."""
    found = RELEASE.search(CHANGES.read_text())
    assert found, "CHANGELOG.md has no version"
    return found[1], found[2]


def title(name: str) -> str:
    """The first line of a manual page."""
    version, day = release()
    return f'.TH {name.upper()} 1 {day} "station_check {version}" "User Commands"'


def named(text: str) -> str:
    """Text of a script, with the names under which scripts are installed."""
    text = text.replace("`", "'")
    for script in TOOLS:
        text = re.sub(rf"(?:python3 )?\b{script}\.py\b", name_of(script), text)
    return text


def command(text: str) -> list[str]:
    """Lines that are typed, as a manual page has them."""
    return [".PP", ".RS", ".nf", *escaped(text).splitlines(), ".fi", ".RE"]


def description(module: ModuleType) -> Iterator[str]:
    """What a script says of itself, but for its exit statuses."""
    for place, paragraph in enumerate(named(module.__doc__ or "").strip().split("\n\n")):
        if paragraph.startswith(END):
            continue
        if paragraph.startswith(" "):
            yield from command(re.sub(r"^ +", "", paragraph, flags=re.MULTILINE))
        else:
            yield from [".PP"] * (place > 0)
            yield from man_text(paragraph)


def options(parser: argparse.ArgumentParser) -> Iterator[str]:
    """The operands and options, each with what the help says of it."""
    _, _, text = parser.format_help().partition("\n\n")
    for words, said in OPTION.findall(text.partition(parser.epilog or "\n\n\n")[0]):
        if said:
            yield from [".TP", f"\\fB{escaped(words)}\\fR"]
            yield from man_text(f"{said[0].upper()}{said[1:]}.")


def statuses(said: str) -> Iterator[str]:
    """The exit statuses, as 'Exit status: 0 written, 1 not, 2 a mistake.' names them."""
    for status, meaning in re.findall(r"(\d) (.*?)(?:, (?=\d)|\.$)", said):
        yield from [".TP", f".B {status}", *man_text(f"{meaning[0].upper()}{meaning[1:]}.")]


def page(script: str) -> str:
    """The manual page of a script."""
    name, module = name_of(script), importlib.import_module(script)
    does, document = TOOLS[script]
    parser = module.command_line()
    parser.prog, parser.formatter_class = name, Wide
    usage = parser.format_usage().removeprefix(f"usage: {name} ")
    example, _, said = named((parser.epilog or "") % {"prog": name}).partition(END)
    lines = [
        f'.\\" The manual page of {name}, made by tools/manuals.py.',
        title(name),
        ".SH NAME",
        f"{name} \\- {does}",
        ".SH SYNOPSIS",
        f".B {name}",
        *man_text(usage.strip()),
        ".SH DESCRIPTION",
        *description(module),
        ".SH OPTIONS",
        *options(parser),
        ".SH EXIT STATUS",
        *statuses(said),
    ]
    if example := example.removeprefix("Example: ").rstrip().removesuffix("."):
        lines += [".SH EXAMPLES", *command(example)[1:]]
    lines += [".SH SEE ALSO", ".BR station_check (1)", ".PP"]
    lines += ["A document of an installation,", f".IR share/doc/station_check/docs/{document} ,"]
    lines += ["shows it at work."]
    return "".join(f"{line}\n" for line in lines)


def pages() -> Iterator[tuple[Path, str]]:
    """Each manual page, with what it must hold."""
    sys.path.insert(0, str(EXAMPLES))
    for script in TOOLS:
        yield MAN_PAGE.with_name(f"{name_of(script)}.1"), page(script)
    yield MAN_PAGE, TITLE.sub(lambda _: title("station_check"), MAN_PAGE.read_text(), count=1)


def main() -> None:
    for path, text in pages():
        path.write_text(text)


if __name__ == "__main__":
    main()
