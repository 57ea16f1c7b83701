"""Makes what the manual page and the completions say of commands and options, from what the program's
help says of them: `python3 tools/commands.py [PROGRAM]`.

In each file the parts between two comments are made.
"""

import re
import subprocess
import sys
from pathlib import Path
from typing import Callable, Iterator, NamedTuple

from faults import PROGRAM, sentence
from man import MAN_PAGE, ROOT, escaped, man_text
from parts import with_part

SHARE = ROOT / "packaging" / "share"
BASH = SHARE / "bash-completion" / "completions" / "station_check"
ZSH = SHARE / "zsh" / "site-functions" / "_station_check"
FISH = SHARE / "fish" / "vendor_completions.d" / "station_check.fish"

# The operands that are paths, and what stands for the value of an option that is one.
PATHS = {"GSI", "SHEET", "TABLE"}

# The operand that is the name of a fault, or the line of a refusal.
FAULT = "FAULT"

# The parts of a help text: what stands before its first heading, and what stands below each.
HEADING = re.compile(r"^(Usage|Commands|Arguments|Options|Exit status):", re.MULTILINE)

# An option or an operand in a long help text, and what is said of it below.
ENTRY = re.compile(r"^ +(?:-\w, )?(--[\w-]+|<\w+>|\[\w+\]\S*)(?: <([\w,=]+)>)?\n((?:^ {10}.*\n|^\s*\n)*)", re.MULTILINE)
DEFAULT = re.compile(r"\s*\[default: (\w+)\]")
POSSIBLE = re.compile(r"\s*\[possible values: [\w, ]+\]")
RANGE = re.compile(r"(\d+) to (\d+)")

# What stands for a limit, which may be stated in mgon.
LIMIT = "LIMIT"

# The options that every command has, and that are no part of what it says of itself.
GENERAL = ["--help", "--version"]


class Option(NamedTuple):
    name: str
    value: str  # what stands for its number or its text; of a flag nothing
    text: str
    usual: str | None  # its number where none is stated; of a text none

    def summary(self) -> str:
        return first_sentence(self.text)

    def where_none_is_stated(self) -> str:
        return f"It is {self.usual} where none is stated." if self.usual else ""

    def is_repeated(self) -> bool:
        """Whether it may stand several times, as its help says."""
        return "several times" in self.text

    def wanted(self) -> str:
        """What its value is, as a completion says."""
        found = RANGE.search(self.text)
        if found and self.value != LIMIT:
            return "number from {} to {}".format(*found.groups())
        return self.value.lower()


class Command(NamedTuple):
    name: str
    summary: str
    paragraphs: list[str]
    operands: list[tuple[str, str]]  # of each its name and what is said of it
    options: list[Option]

    def places_of_paths(self) -> list[int]:
        """At which of its operands a path stands, counted from 0."""
        return [place for place, (name, _) in enumerate(self.operands) if plain(name) in PATHS]


def plain(operand: str) -> str:
    """The name of an operand, also of one that may be left out."""
    return operand.strip("[].")


def first_sentence(text: str) -> str:
    return re.split(r"(?<=[^.])\. (?=[A-Z])", text)[0]


def help_of(program: Path, *words: str) -> tuple[str, dict[str, str]]:
    run = subprocess.run([program, *words, "--help"], check=True, capture_output=True, text=True)
    parts = HEADING.split(run.stdout)
    return parts[0].strip(), dict(zip(parts[1::2], parts[2::2]))


def entries(part: str) -> list[tuple[str, str, str]]:
    """Of each option or operand its name, what stands for its value, and what is said of it."""
    return [(name.strip("<>"), value, " ".join(text.split())) for name, value, text in ENTRY.findall(part)]


def options_in(part: str) -> Iterator[Option]:
    for name, value, text in entries(part):
        if name not in GENERAL:
            usual = DEFAULT.search(text)
            said = POSSIBLE.sub("", DEFAULT.sub("", text))
            yield Option(name, value, said, usual[1] if usual else None)


def command_of(program: Path, name: str, summary: str) -> Command:
    about, parts = help_of(program, name)
    paragraphs = [" ".join(paragraph.split()) for paragraph in about.split("\n\n")]
    operands = [(operand, text) for operand, _, text in entries(parts.get("Arguments", ""))]
    return Command(name, summary, paragraphs, operands, list(options_in(parts["Options"])))


def commands(program: Path) -> list[Command]:
    """The commands but `help`, as the help of the program lists them."""
    _, parts = help_of(program)
    rows = re.findall(r"^  (\w+) +(.*(?:\n {6,}.*)*)", parts["Commands"], re.MULTILINE)
    return [command_of(program, name, " ".join(text.split())) for name, text in rows if name != "help"]


def options_of(found: list[Command]) -> dict[Option, list[Command]]:
    """Each option once, with the commands that have it."""
    of_option: dict[Option, list[Command]] = {}
    for command in found:
        for option in command.options:
            of_option.setdefault(option, []).append(command)
    return of_option


def lowered(text: str) -> str:
    return text[0].lower() + text[1:]


# The manual page.


def shown(operand: str) -> str:
    """An operand as the manual page names it."""
    return f"[{plain(operand)} ...]" if operand.endswith("...") else operand


def synopsis(found: list[Command]) -> Iterator[str]:
    for command in found:
        yield f".B station_check {command.name}"
        for option in command.options:
            if option.value:
                yield f".RB [ {escaped(option.name)}"
                yield f".IR {option.value} ]"
            else:
                yield f".RB [ {escaped(option.name)} ]"
        yield ".I " + " ".join(shown(name) for name, _ in command.operands)
        yield ".br"


def of_commands(found: list[Command]) -> Iterator[str]:
    for command in found:
        yield ".TP"
        yield f'.BI {command.name} " {" ".join(shown(name) for name, _ in command.operands)}"'
        for place, paragraph in enumerate(command.paragraphs):
            yield from [".IP"] * (place > 0)
            yield from man_text(paragraph)


def of_options(found: list[Command]) -> Iterator[str]:
    for option, having in options_of(found).items():
        yield ".TP"
        yield f'.BI {escaped(option.name)} " {option.value}"' if option.value else f".B {escaped(option.name)}"
        if len(having) < len(found) / 3:
            yield from man_text(f"Of {' and '.join(command.name for command in having)} alone.")
        yield from man_text(sentence(option.text.rstrip(".")))
        yield from man_text(option.where_none_is_stated())


def man_page(text: str, found: list[Command]) -> str:
    for name, lines in [("synopsis", synopsis), ("commands", of_commands), ("options", of_options)]:
        part = "".join(f"{line}\n" for line in lines(found))
        text = with_part(text, '.\\"', name, "commands.py", part)
    return text


# The completions.


def bash_part(found: list[Command]) -> Iterator[str]:
    names = " ".join(command.name for command in found)
    yield f"_station_check_commands='{names} help'"
    yield f"_station_check_valued='{' '.join(option.name for option in options_of(found) if option.value)}'"
    yield "# Of these the ones whose value is a path."
    yield f"_station_check_filed='{' '.join(option.name for option in options_of(found) if option.value in PATHS)}'"
    yield "declare -gA _station_check_options=("
    for command in found:
        if command.options:
            yield f"  [{command.name}]='{' '.join(option.name for option in command.options)}'"
    yield ")"
    yield "# At which of the operands of a command a path stands."
    yield "declare -gA _station_check_paths=("
    for command in found:
        if places := command.places_of_paths():
            yield f"  [{command.name}]='{' '.join(map(str, places))}'"
    yield ")"


def fish_part(found: list[Command]) -> Iterator[str]:
    of_program = "complete -c station_check -n __fish_use_subcommand"
    seen = "complete -c station_check -n '__fish_seen_subcommand_from"
    for command in found:
        yield f'{of_program} -a {command.name} -d "{command.summary}"'
    names = " ".join(command.name for command in found if command.places_of_paths())
    yield f"{seen} {names}' -F"
    for option, having in options_of(found).items():
        names = " ".join(command.name for command in having)
        valued = " -r -F" if option.value in PATHS else " -x" if option.value else ""
        yield f'{seen} {names}\' -l {option.name[2:]}{valued} -d "{option.summary()}"'
    yield f"{seen} help' -a '{' '.join(command.name for command in found)}'"


def zsh_option(option: Option) -> str:
    said = f"[{lowered(option.summary()).replace(':', ',')}]"
    action = ":_files" if option.value in PATHS else ""
    name = "*" * option.is_repeated() + option.name
    return f"'{name}={said}:{option.wanted()}{action}'" if option.value else f"'{name}{said}'"


def zsh_operand(place: int, name: str, text: str) -> str:
    actions = {FAULT: "_station_check_faults", **{path: "_files" for path in PATHS}}
    action = actions.get(plain(name), "")
    return f"'{place}:{lowered(text)}:{action}'"


def zsh_part(found: list[Command]) -> Iterator[str]:
    yield "_station_check_commands=("
    for command in found:
        yield f"  '{command.name}:{lowered(command.summary)}'"
    yield "  'help:prints the help of a command'"
    yield ")"
    yield "_station_check_operands() {"
    yield "  case $1 in"
    for command in found:
        yield f"    {command.name})"
        yield "      _arguments '(-h --help)'{-h,--help}'[print help]' \\"
        for option in command.options:
            yield f"        {zsh_option(option)} \\"
        operands = [zsh_operand(place, *operand) for place, operand in enumerate(command.operands, 1)]
        yield f"        {' '.join(operands)}"
        yield "      ;;"
    yield "  esac"
    yield "}"


def completions(path: Path, part: Callable[[list[Command]], Iterator[str]], found: list[Command]) -> str:
    lines = "".join(f"{line}\n" for line in part(found))
    return with_part(path.read_text(), "#", "commands", "commands.py", lines)


def pages(program: Path) -> Iterator[tuple[Path, str]]:
    """Each file that says something of commands, with what it must hold."""
    found = commands(program)
    yield MAN_PAGE, man_page(MAN_PAGE.read_text(), found)
    for path, part in [(BASH, bash_part), (FISH, fish_part), (ZSH, zsh_part)]:
        yield path, completions(path, part, found)


def main() -> None:
    for path, text in pages(Path(sys.argv[1]) if len(sys.argv) > 1 else PROGRAM):
        path.write_text(text)


if __name__ == "__main__":
    main()
