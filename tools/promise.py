"""Makes docs/PROMISE.md: the definitions that the promise of an accepted sheet needs, with their text.

`python3 tools/promise.py` makes the page, and `python3 tools/promise.py --print` prints it. It goes by definitions
and not by files: those that the promise cites, however far, as they stand in specs/, each after all that it cites.
"""

import re
import sys
from functools import cache
from typing import Iterator, NamedTuple

import definitions
from definitions import CASES, CONSTANTS, ROOT, Constant, Spec

PAGE = ROOT / "docs" / "PROMISE.md"
PROMISE = ("sheet_promise", "Promised", "IsPromised")

# What the page goes through, in the order in which a reader needs it.
SECTIONS = {
    "The field file": [
        ("gsi_word", ["Bytes", "Words", "Blocks", "Names", "FoundWords", "Angles"]),
        ("gsi_file", ["Parts"]),
    ],
    "The sheet": [("adjust_kernel", ["Sheets"]), ("sheet_format", ["Rows"]), ("sheet_promise", ["SheetRows"])],
    "The two faces": [("station_book", ["Limits", "TwoFaces"])],
    "The station": [("sheet_promise", ["Readings"])],
    "Least squares": [("adjust_kernel", ["Within", "Sums"]), ("sheet_promise", ["LeastByNames"])],
    "The promise": [("sheet_promise", ["Promised"])],
}

# What the words of the standard library mean that these definitions use.
LIBRARY = {
    "ℕ suc ℤ pos negsuc": "numbers from 0 on; the next; whole numbers; as one of these; -1 less that",
    "neg_ℤ unsigned_abs ◌+ℤ◌ ◌-ℤ◌ ◌*ℤ◌ ◌≤ℤ◌": "of whole numbers: minus; the size; their signs",
    "◌-◌ ◌/◌ ◌%◌": "of numbers from 0 on: 0 where the difference is below 0; the quotient and what is left",
    "◌≡◌ ◌≢◌ ¬ ⊥": "the same; not the same; not; what never holds",
    "◌×◌ ◌⊎◌ ◌↔◌": "both; one or the other; each where the other",
    "◌==◌ nat_eq bytes_eq ◌||◌ not IsTrue": "tests of numbers and bytes; either; not; it answers yes",
    "List [] ◌∷◌ ◌++◌ length": "lists: none, one before others, two joined; how many",
    "map filter fold": "what each gives; those that pass a test; from the first on, each with what came before",
    "replicate drop slice_index": "so many of one; all but the first so many; what stands at a place, from 0",
    "All AllPass list_all Any AllPairs": "each is so, or passes a test; one is so; each is so with each after it",
    "AllZip Contains": "two lists are as long, and so are the two at each place; it is in the list",
    "Option Some None IfSome": "something or nothing; it is so of what there is",
    "Bool false if◌then◌else◌": "yes or no; by a test",
    "codes is_ascii_digit": "the bytes of a text; whether a byte is a digit",
    "starts_with join_with_byte slice_split": "begins with; joined by a byte; the pieces between those that pass a test",
}

INTRODUCTION = """\
# The promise in one sitting

What an acceptance by `check` means, of the bytes of a field file and of a sheet alone: all {count} definitions of it, {lines} lines with their comments, as in `specs/` but for what is the prover's alone (`tools/promise.py` makes the page); [the promise](#the-promise) is the last. It is proved that [whatever is accepted is promised so, and the promise of these bytes speaks of one sheet, one station and one answer](../crates/sheet_promise/src/laws.rt), [of the bytes that are passed, or that readers gave, of files too](../crates/sheet_promise/src/promised.rt). Whoever believes this page, and what [is trusted](../README.md#what-is-trusted), may believe an acceptance. [The definitions](DEFINITIONS.md) have what more it says, as that no fault stands in the file.

## How to read it

A *record* holds where each of its fields holds; of numbers and lists it is a value. `f x = ..` says what `f` is of `x`, a line for each form of `x`. `(x : A) → B` is said of each `x`, `A → B` where A holds; `λ x. ..` is a function; what gives a `Type 0` says something that may hold. `---- gsi_word Bytes` stands before what is of [`crates/gsi_word/specs/Bytes.antt`](../crates/gsi_word/specs/Bytes.antt), with its source in brackets. Angles and the limits of face differences are in units of 0.00001 gon, two-face directions in half units.

| Word | Means |
|---|---|
"""

VALUES = """
The numbers, each pinned by [a law](DEFINITIONS.md#numbers-types-and-csv): {constants}. The rows of a CSV file are what `records`, `strip_bom` and `default_config` of the library `csv` say, [in words](FORMATS.md#a-sheet). Values of the code:

{types}
"""

# A definition in a file: no line of it is blank.
NAME = re.compile(r"^(?:abbrev |unfoldable )?(?:pub )?(?:(?:record|data) )?([^\s:(){}]+)")
WORD = re.compile(r"[^\s(){},;.λ]+")
IMPORT = re.compile(r"^use Rattle\.(\w+)\.specs\.([\w.]+)\.\{([^}]*)\}", re.MULTILINE)
RENAMED = re.compile(r"^use Rattle\.(\w+)\.specs\.(declared\.[\w.]+)\.(\w+) as (\w+)$", re.MULTILINE)
HIDDEN = re.compile(r"^(?:abbrev |unfoldable )?pub |(?<=^  )pub | : Type 0(?= where$)", re.MULTILINE)
FIELD = re.compile(r"(?<=[\w)])\.\w+")
TYPE = r"((?:^///[^\n]*\n)+)(?:^#\[[^\n]*\n)*^pub(?:\(crate\))? (?:struct|enum) {} \{{\n(.*?)^\}}$"
SOURCE = re.compile(r"GSI manual|textbook|profile")
PART = re.compile(r"^ +/// (.*)\.\n +(?:pub )?(\w+)", re.MULTILINE)


class Cited(NamedTuple):
    """What a definition names."""

    crate: str
    module: str
    name: str


class Definition(NamedTuple):
    """A definition as it stands in its file, with its comment."""

    text: str

    def words(self) -> set[str]:
        """Its words and signs, without those of comments and those after a point."""
        code = [line for line in self.text.splitlines() if not line.lstrip().startswith("--")]
        words = WORD.findall(FIELD.sub("", "\n".join(code)))
        return {*words, *(f"◌{word}◌" for word in words), *["if◌then◌else◌"] * ("if" in words)}


@cache
def definitions_of(spec: Spec) -> dict[str, Definition]:
    """The definitions of a file by their names, in its order."""
    found = {}
    for part in spec.text().split("\n\n"):
        lines = [line for line in part.strip("\n").splitlines() if not line.startswith("use ")]
        code = [line for line in lines if not line.startswith("--")]
        if code and (named := NAME.match(code[0])):
            found[named[1]] = Definition("\n".join(lines))
    return found


@cache
def imports(spec: Spec) -> dict[str, Cited]:
    """What a file takes of other files, by the name that it has here."""
    found = {}
    for crate, module, names in IMPORT.findall(spec.text()):
        for name in names.split(","):
            there, _, here = name.strip().partition(" as ")
            found[here or there] = Cited(crate, module, there)
    for crate, module, name, here in RENAMED.findall(spec.text()):
        found[here] = Cited(crate, f"{module}.{name}", name)
    return found


def cited(one: Cited) -> Iterator[Cited]:
    """What a definition names, itself aside."""
    spec = Spec(one.crate, one.module)
    own, taken = definitions_of(spec), imports(spec)
    for word in sorted(own[one.name].words() - {one.name}):
        if word in own:
            yield Cited(one.crate, one.module, word)
        elif word in taken:
            yield taken[word]


def closure(first: Cited) -> set[Cited]:
    """A definition with all that it names, however far."""
    found: set[Cited] = set()
    waiting = [first]
    while waiting:
        one = waiting.pop()
        if one not in found:
            found.add(one)
            if Spec(one.crate, one.module).path.is_file():
                waiting += cited(one)
    return found


def in_order(needed: set[Cited]) -> Iterator[tuple[str, list[Cited]]]:
    """The needed definitions, section by section, in the order of their files."""
    for title, parts in SECTIONS.items():
        files = [Spec(crate, module) for crate, modules in parts for module in modules]
        every = [Cited(spec.crate, spec.module, name) for spec in files for name in definitions_of(spec)]
        yield title, [one for one in every if one in needed]


def text_of(one: Cited) -> str:
    """Its text, without what says to the prover alone how it is used."""
    return HIDDEN.sub("", definitions_of(Spec(one.crate, one.module))[one.name].text)


def constants(needed: set[Cited]) -> list[str]:
    """The constants of the code that are named, with what they are."""
    found = sorted((one.crate, one.name) for one in needed if one.module.endswith(CONSTANTS))
    return [f"`{name}` {Constant(crate, name).law()[1]}" for crate, name in found]


def types(needed: set[Cited]) -> Iterator[str]:
    """The types of the code whose values are named, each with its fields or cases."""
    for one in sorted(needed):
        if one.module.startswith("declared.") and not one.module.endswith((CONSTANTS, CASES)):
            for path in sorted((ROOT / "crates" / one.crate / "src").glob("**/*.rt")):
                pattern = re.compile(TYPE.format(one.name), re.MULTILINE | re.DOTALL)
                if found := pattern.search(path.read_text()):
                    parts = [f"`{name}`, {about[:1].lower()}{about[1:]}" for about, name in PART.findall(found[2])]
                    about = " ".join(found[1].replace("///", "").split())
                    yield f"- `{one.name}`: {about} {'; '.join(parts)}".strip() + "." * bool(parts)


def words_of(row: str) -> str:
    """The words of a row of the table; a bar would end its cell."""
    return "`" + row.replace("|", "\\|") + "`"


def source_of(spec: Spec) -> str:
    """Where a file takes what it says from, as its head has that in brackets."""
    found = [words for words in re.findall(r"\(([^()]*)\)", spec.head()) if SOURCE.search(words)]
    return f" ({'; '.join(found)})" * bool(found)


def page() -> str:
    needed = closure(Cited(*PROMISE))
    sections = list(in_order(needed))
    texts = [text_of(one) for _, ones in sections for one in ones]
    lines = sum(len(text.splitlines()) for text in texts)
    parts = [INTRODUCTION.format(count=len(texts), lines=lines)]
    parts += [f"| {words_of(words)} | {meaning} |\n" for words, meaning in LIBRARY.items()]
    parts.append(VALUES.format(constants=definitions.listed(constants(needed)), types="\n".join(types(needed))))
    for title, ones in sections:
        shown = []
        for spec in dict.fromkeys(Spec(one.crate, one.module) for one in ones):
            shown.append(f"---- {spec.crate} {spec.module}{source_of(spec)}")
            shown += [text_of(one) for one in ones if Spec(one.crate, one.module) == spec]
        parts.append("\n".join(["", f"## {title}", "", "```", "\n\n".join(shown), "```", ""]))
    return "".join(parts)


if __name__ == "__main__":
    if sys.argv[1:] == ["--print"]:
        print(page(), end="")
    else:
        PAGE.write_text(page())
