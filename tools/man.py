"""Text in the form of a manual page, which the scripts that make parts of such pages share."""

import re
import textwrap
from pathlib import Path

ROOT = Path(__file__).resolve().parents[1]
MAN_PAGE = ROOT / "packaging" / "share" / "man" / "man1" / "station_check.1"

# The width of a line in a manual page.
MAN_WIDTH = 80


def escaped(text: str) -> str:
    """Text for a manual page: each byte stands for itself."""
    for plain, named in [("\\", "\\e"), ("-", "\\-"), ("'", "\\(aq"), ("^", "\\(ha"), ("`", "\\(ga"), ("~", "\\(ti")]:
        text = text.replace(plain, named)
    return re.sub(r"^\.", r"\\&.", text, flags=re.MULTILINE)


def whole_words(text: str) -> list[str]:
    """The lines of a text, none of them broken within a word."""
    return textwrap.wrap(text, MAN_WIDTH, break_long_words=False, break_on_hyphens=False)


def man_text(text: str) -> list[str]:
    """The lines of a text in a manual page, each sentence on a line of its own that may go on."""
    sentences = re.split(r"(?<=[.:]) (?=[A-Z])", text.replace("\n", " "))
    wrapped = (whole_words(escaped(part)) for part in sentences)
    return [line for lines in wrapped for line in lines]
