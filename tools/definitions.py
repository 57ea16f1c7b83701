"""Makes docs/DEFINITIONS.md from the comments in specs/: `python3 tools/definitions.py`.

The page leads a verifier: it has what an acceptance and an agreement rest on, the file of each and all
that it cites, however far, in reading order, and of what is printed the file of each promise. The
definitions are read where they stand; those of the promise of a sheet in docs/PROMISE.md.
"""

import re
from pathlib import Path
from typing import Iterator, NamedTuple

ROOT = Path(__file__).resolve().parents[1]
PAGE = ROOT / "docs" / "DEFINITIONS.md"
ACCEPTANCE = ("station_check", "Accepted")
CONTRACT = [
    ("byte_ends", "Came"),
    ("station_check", "Answerable"),
    ("station_check", "SheetInput"),
    ("station_check", "Promise"),
]
AGREEMENT = ("station_compare", "Agreeing")

# The promises of what is printed, each after those whose files it shares.
PRINTED = {
    "`directions`": ("station_answers", "Directions"),
    "`list`": ("station_check", "Listing"),
    "`list --csv`": ("list_rows", "Listing"),
    "`means`": ("station_check", "Means"),
    "`words`": ("station_check", "WordTexts"),
    "`mark`": ("set_marks", "Markings"),
    "the notes of `mark`": ("station_mark", "Notes"),
    "`differences`": ("station_differences", "Stating"),
    "the residuals of the page and the library": ("station_residuals", "Stating"),
    "`report`": ("station_report", "Stating"),
    "`report --table`": ("table_report", "Stating"),
    "what `compare`, `differences` and `report --table` say of a field file and a table": ("table_answers", "Answers"),
    "`report --csv`": ("report_rows", "Stating"),
    "what `directions` and `report` say of a field file": ("station_answers", "Answers"),
    "what they say of all its stations": ("book_answers", "Answers"),
    "what `compare` and `differences` say of all": ("book_answers", "Tables"),
    "what reports have of instrument and time": ("instrument_reports", "Answers"),
    "the pages of a report": ("instrument_reports", "Printing"),
    "what is printed with `--sha256`": ("station_record", "Recorded"),
    "`change`": ("changed_lines", "Answers"),
    "the notes of `change`": ("station_change", "Notes"),
}

# More letters than most rows of the page have.
LONGEST_ROW = 160

USE = re.compile(r"^use Rattle\.(\w+)\.specs\.(\w+)(?:\.|$| as)", re.MULTILINE)
DEFINITION = re.compile(r"^(?:abbrev|unfoldable) pub ([^\s:]+)|^pub (?:record|data) ([^\s:]+)")
MODULE = re.compile(r"^pub mod (\w+)", re.MULTILINE)

# What definitions take of the code: constants, or a type; and the law of a constant, in its crate.
OF_CODE = re.compile(r"^use Rattle\.(\w+)\.specs\.declared\.([\w.]+)\.(\w+)\.\{([^}]*)\}", re.MULTILINE)
CONSTANTS, CASES = "TheConstants", "TheVariants"
LAW = re.compile(r"^pub fn (\w+)\(\)$|ensures \w+ \{ (\w+) ≡ (?:pos )?([\d_]+) \}", re.MULTILINE)

INTRODUCTION = """\
# Definitions

Which files a verifier reads, in which order (`tools/definitions.py` makes this page). In their comments *GSI manual* means Leica's description of the format, *textbook* the usual least-squares station adjustment, *profile* that this project decides.

1. [What an answer says](TRUST.md), in words; of an acceptance [the promise](PROMISE.md) of the bytes alone, in one sitting.
2. The promise as the contract has it: of an acceptance [`Accepted`](../crates/station_check/specs/Accepted.antt), of an agreement [`Agreeing`](../crates/station_compare/specs/Agreeing.antt); and what it cites, in the lists below, where each file rests on those before it alone: relations on lines and sums over rows, and not the program written again.
3. [`check_bytes`](../crates/station_check/src/check.rt), whose contract it is, and [of which bytes](#of-which-bytes-it-is-said) it is said.
4. [The lines that no contract reaches](TRUST.md#where-the-program-meets-the-system).

Whoever believes these, and what [is trusted](../README.md#what-is-trusted), may believe an answer.
"""


class Definition(NamedTuple):
    name: str
    comment: str


class Spec(NamedTuple):
    """A file of definitions."""

    crate: str
    module: str

    @property
    def path(self) -> Path:
        return ROOT / "crates" / self.crate / "specs" / f"{self.module}.antt"

    @property
    def link(self) -> str:
        return f"[`{self.module}`](../crates/{self.crate}/specs/{self.module}.antt)"

    def about(self) -> str:
        """A row of the page: the name of the file, and what it is about, by its first sentence; of a
        long one, by what stands before its colon."""
        text = self.head().removeprefix(f"{self.module}: ").split(". ")[0]
        return f"- `{self.module}`: {sentence(text if len(text) <= LONGEST_ROW else text.split(': ')[0])}"

    def text(self) -> str:
        return self.path.read_text()

    def lines(self) -> int:
        return len(self.text().splitlines())

    def head(self) -> str:
        """What the file is about: the comment that it begins with."""
        taken = []
        for line in self.text().splitlines():
            if not line.startswith("--"):
                break
            taken.append(line.removeprefix("--").strip())
        return " ".join(taken)

    def definitions(self) -> list[Definition]:
        found: list[Definition] = []
        comment: list[str] = []
        for line in self.text().splitlines():
            if line.startswith("--"):
                comment.append(line.removeprefix("--").strip())
            elif matched := DEFINITION.match(line):
                name, record = matched.groups()
                found.append(Definition(name or record, " ".join(comment)))
                comment = []
            else:
                comment = []
        return found

    def cited(self) -> set["Spec"]:
        """The files of definitions that this one uses, those of this repository."""
        return {Spec(*pair) for pair in USE.findall(self.text()) if Spec(*pair).path.is_file()}


def crates() -> list[str]:
    """The crates, the lowest first."""
    lines = (ROOT / "crates.txt").read_text().splitlines()
    names = [re.match(r"(\w+)[^:]*:", line) for line in lines if not line.startswith("#")]
    return [name[1] for name in names if name and (ROOT / "crates" / name[1] / "specs").is_dir()]


def specs_of(crate: str) -> list[Spec]:
    """The files of a crate's definitions, in the order in which a reader needs them."""
    lib = ROOT / "crates" / crate / "specs" / "Lib.antt"
    return [Spec(crate, module) for module in MODULE.findall(lib.read_text())]


def closure(first: Spec) -> list[Spec]:
    """A file and all that it cites, however far, in reading order: what is cited comes before."""
    order: list[Spec] = []

    def take(spec: Spec) -> None:
        if spec in order:
            return
        for cited in sorted(spec.cited(), key=place):
            take(cited)
        order.append(spec)

    everything = [spec for crate in crates() for spec in specs_of(crate)]
    place = {spec: number for number, spec in enumerate(everything)}.__getitem__
    take(first)
    return order


def sentence(text: str) -> str:
    """A comment as a sentence: it ends with a point, and begins with a capital where it does not
    begin with a name of one letter. The article is no name."""
    text = text if re.match(r"[^\Wa]\b", text) else text[:1].upper() + text[1:]
    return text if text.endswith((".", ":")) else f"{text}."


def size_of(specs: list[Spec]) -> str:
    return f"{len(specs)} files below, {sum(spec.lines() for spec in specs):,} lines with their comments"


class Constant(NamedTuple):
    """A constant of the code that definitions name."""

    crate: str
    name: str

    def law(self) -> tuple[str, str]:
        """The law that pins it, and in which digits."""
        law = ""
        for begun, name, digits in LAW.findall((self.sources() / "laws.rt").read_text()):
            law = begun or law
            if name == self.name:
                return law, f"{int(digits):,}"
        raise LookupError(f"no law of {self.crate} says what {self.name} is")

    def sources(self) -> Path:
        return ROOT / "crates" / self.crate / "src"


def of_code(specs: list[Spec]) -> tuple[list[Constant], dict[str, list[str]]]:
    """The constants that definitions take of the code, and the types, by crate."""
    constants: dict[Constant, None] = {}
    types: dict[str, dict[str, None]] = {}
    for spec in specs:
        for crate, _, kind, names in OF_CODE.findall(spec.text()):
            for name in names.split(","):
                if kind == CONSTANTS:
                    constants[Constant(crate, name.split(" as ")[0].strip())] = None
                elif kind != CASES:
                    types.setdefault(crate, {})[kind] = None
    return list(constants), {crate: list(names) for crate, names in types.items()}


def belief(specs: list[Spec]) -> Iterator[str]:
    yield "## What you have to believe\n"
    yield (
        f"An acceptance means what {Spec(*ACCEPTANCE).link} says. It rests on the {size_of(specs)}, on the "
        "[numbers, types and rules of CSV](#numbers-types-and-csv) after them, and on nothing else.\n"
    )
    yield from by_name(specs)


def belief_of_code(specs: list[Spec]) -> Iterator[str]:
    """The constants, the types and the rules of CSV that definitions take from elsewhere."""
    constants, types = of_code(specs)
    yield "### Numbers, types and CSV\n"
    yield (
        f"The definitions name {len(constants)} constants of the code. A law pins each in digits, "
        "so that no other number is proved:\n"
    )
    laws: dict[tuple[str, str], list[str]] = {}
    for constant in constants:
        law, digits = constant.law()
        laws.setdefault((constant.crate, law), []).append(f"{constant.name} {digits}")
    for (crate, law), numbers in laws.items():
        yield f"- of `{crate}`, [{law}](../crates/{crate}/src/laws.rt): {'; '.join(numbers)}."
    listed_types = "; ".join(f"of `{crate}` {', '.join(names)}" for crate, names in types.items())
    yield (
        f"\nThey speak of values of these types of the code: {listed_types}.\n"
    )
    yield (
        "What the rows of a CSV file are, `records`, `strip_bom` and `default_config` of the library `csv` "
        "say, which is trusted with the toolchain; [in words](FORMATS.md#a-sheet).\n"
    )


def belief_of_contract(specs: list[Spec]) -> Iterator[str]:
    yield "### Of which bytes it is said\n"
    yield (
        f"The contract of `check_bytes` is {Spec(*CONTRACT[-1]).link}. An acceptance rests on its fields "
        "`gsi_reads` and `sheet_reads`, which say that the readers gave the bytes `gsi_bytes` and "
        "`sheet_bytes`, on `promise`, `gsi_reader` and `sheet_reader`, and so on what these "
        f"{len(specs)} files say of an acceptance:\n"
    )
    yield from [*(spec.about() for spec in specs), ""]


def belief_beside(title: str, says: str, specs: list[Spec], known: list[Spec]) -> Iterator[str]:
    """What has to be believed of one more sentence, the last of the files, beside those that are known."""
    shared = sum(1 for spec in specs if spec in known)
    more = [spec for spec in specs if spec not in known]
    yield f"## What you have to believe of {title}\n"
    yield (
        f"{says} means what {specs[-1].link} says. "
        f"It rests on {shared} of the files above and on the {size_of(more)}, and on no others.\n"
    )
    yield from by_name(more)


def belief_of_printed(known: list[Spec]) -> Iterator[str]:
    """What has to be believed of what is printed, a line for each command."""
    yield "## What you have to believe of what is printed\n"
    yield (
        "What a command prints means what its file says, with what that cites: files above, and so many "
        "lines of others.\n"
    )
    known = list(known)
    for what, root in PRINTED.items():
        promise = Spec(*root)
        more = [spec for spec in closure(promise) if spec not in known]
        yield f"- of {what}: {promise.link}, {sum(spec.lines() for spec in more):,}."
        known += more
    yield ""


def listed(words: list[str]) -> str:
    """Words as a sentence lists them: a, b and c."""
    return " and ".join(filter(None, [", ".join(words[:-1]), words[-1]]))


def by_name(specs: list[Spec]) -> Iterator[str]:
    """A row for each crate, the lowest first, with its files: so each stands after those that it cites."""
    for crate in crates():
        if modules := [spec.module for spec in specs if spec.crate == crate]:
            yield f"- [`{crate}`](../crates/{crate}/specs): {', '.join(modules)}."
    yield ""


def page() -> str:
    contract = [Spec(*pair) for pair in CONTRACT]
    accepted, agreement = closure(Spec(*ACCEPTANCE)), closure(Spec(*AGREEMENT))
    known = [*accepted, *contract]
    believed = [
        *belief(accepted),
        *belief_of_code([*accepted, *contract]),
        *belief_of_contract(contract),
        *belief_beside("an agreement", "That a table of directions agrees", agreement, known),
        *belief_of_printed([*known, *agreement]),
    ]
    return "\n".join([INTRODUCTION, *believed])


if __name__ == "__main__":
    PAGE.write_text(page())
