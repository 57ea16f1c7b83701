"""Joins the modules of the page's scripts, and makes examples/residuals.html of those that draw
residuals: `python3 page/scripts.py`.

A page that is opened from a folder can't load modules, so those of a script stand in it one after
the other, as they are but for their comments, empty lines, the blanks before others, and what they
say of each other. A style has none of these either, and no blank behind a property's name.
"""

import json
import re
import sys
from collections import Counter
from pathlib import Path
from typing import Any

HERE = Path(__file__).resolve().parent

# The modules of each script, in the order in which they need each other: of the worker, which needs
# no page around it; of the page; what is run later in it, which needs the page's; and of the residuals
# of a station in a file of their own.
SCRIPTS = {
    "calls": ["calls.js", "numbers.js", "packed.js", "rows.js", "worker.js"],
    "page": [
        "texts.js", "numbers.js", "files.js", "packed.js", "stored.js", "work.js", "limits.js",
        "notes.js", "elements.js", "drawing.js", "gather.js", "page.js",
    ],
    "later": [
        "rows.js", "faults.js", "answers.js", "headlines.js", "overview.js", "place.js",
        "changes.js", "repairs.js", "tables.js", "readings.js", "picture.js", "results.js",
        "refusals.js", "protocol.js", "cards.js", "workbook.js",
    ],
    "residuals": [
        "texts.js", "numbers.js", "rows.js", "elements.js", "tables.js", "picture.js",
        "residuals.js",
    ],
}

# How results look, and the page around them.
STYLES = {"results": ["results.css"], "page": ["results.css", "style.css"]}

# The page that examples/residuals.py fills in, and what it is made of.
RESIDUALS = HERE.parent / "examples" / "residuals.html"
TEMPLATE = HERE / "residuals.html"

# What a module says of its names for others: it is left out where all stand in one script.
IMPORT = re.compile(r"^import \{[^}]*\} from '\./(\w+\.js)';\n", re.MULTILINE)
EXPORT = re.compile(r"^export (?=(?:async )?(?:const|let|class|function)\b)", re.MULTILINE)

# A comment that begins its line, and one of a type.
COMMENT = re.compile(r"^ *//[^\n]*\n|/\*\*.*?\*/(?: |\n(?: *\n)*)?", re.MULTILINE | re.DOTALL)

# A comment of a style, the name of a property that begins its line, with the blank behind, and what
# is blank before a line, lines too.
NOTE = re.compile(r"/\*.*?\*/\n?", re.DOTALL)
PROPERTY = re.compile(r"^([-\w]+:) ", re.MULTILINE)
INDENT = re.compile(r"^\s+", re.MULTILINE)

# A colour of a style that is one where it is light and another where it is dark.
COLOUR = re.compile(r"^(--[-\w]+): light-dark\((#\w+), #\w+\);", re.MULTILINE)

# What a module declares for all of itself: a name, and constants that stand after another on its
# line.
DECLARED = re.compile(r"^(?:export )?(?:async )?(?:const|let|class|function) (.*)", re.MULTILINE)
NAME = re.compile(r"^[$\w]+|(?<=, )[A-Z_]+(?= = )")

# The texts of the page's own, and those of faults, are in a folder with a file for each language. The
# script that needs texts at once has them in this place; these are said before anything is unpacked,
# and where nothing can be; and a word may name one.
TEXTS = "texts"
NO_TEXTS = "const TEXTS = {};\n"
AT_ONCE = {"cannotFinish", "cannotRun", "gettingReady"}
WORD = re.compile(r"""['"](\w+)['"]""")


def by_language(folder: str) -> dict[str, dict[str, Any]]:
    """The texts of a folder by their languages."""
    return {path.stem: json.loads(path.read_text()) for path in sorted((HERE / folder).glob("*.json"))}


def with_texts(script: str, names: set[str]) -> str:
    """A script with its texts of these names."""
    texts = {
        language: {name: text for name, text in said.items() if name in names}
        for language, said in by_language(TEXTS).items()
    }
    return script.replace(NO_TEXTS, f"const TEXTS = {json.dumps(texts, ensure_ascii=False, indent=0)};\n")


def bare(module: str) -> str:
    """The code of a module, without its comments and what it says of others."""
    return COMMENT.sub("", EXPORT.sub("", IMPORT.sub("", module))).strip()


def joined(modules: list[str]) -> str:
    """The modules of a script in one text; stops where a name stands for two things in it."""
    texts = [(HERE / name).read_text() for name in modules]
    lines = [line for text in texts for line in {*DECLARED.findall(text)}]
    counts = Counter(name for line in lines for name in NAME.findall(line))
    if twice := [name for name, count in counts.items() if count > 1]:
        sys.exit(f"page: these names stand in two modules of one script: {', '.join(twice)}")
    return "\n".join(["'use strict';", *map(bare, texts), ""])


def dense(text: str) -> str:
    """A text without empty lines and the blanks before others."""
    return INDENT.sub("", text)


def styled(name: str) -> str:
    """The style of this name, with the light colours where a browser knows no others."""
    style = dense("\n".join(NOTE.sub("", (HERE / one).read_text()) for one in STYLES[name]))
    light = "; ".join(f"{colour}:{one}" for colour, one in COLOUR.findall(style))
    either = "(color: light-dark(#000, #000))"
    return PROPERTY.sub(r"\1", f"{style}@supports not {either} {{ :root {{ color-scheme:light; {light} }} }}\n")


def filled(template: str, values: dict[str, str]) -> str:
    """A template with each of these values in the place of its name between two @."""
    places = re.compile(f"@({'|'.join(map(re.escape, values))})@")
    return places.sub(lambda place: values[place[1]], template)


def residuals_page() -> str:
    """The page that shows the residuals of a station, which examples/residuals.py puts in. It has
    no texts that it doesn't need."""
    template, script = TEMPLATE.read_text(), joined(SCRIPTS["residuals"])
    script = with_texts(script, {*WORD.findall(template + script)})
    return filled(template, {"style": styled("results"), "script": dense(script)})


def main() -> None:
    RESIDUALS.write_text(residuals_page())
    print(f"{RESIDUALS}: {RESIDUALS.stat().st_size} bytes")


if __name__ == "__main__":
    main()
