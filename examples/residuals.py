#!/usr/bin/env python3
"""Draws the residuals of a station: a file that any browser opens, and that can be printed.

    station_check report --csv FIELD.gsi STATION | python3 residuals.py STATION > PICTURE.html

It has the residuals in mgon as a picture, which can be saved as SVG, and as a table by target and
set. The page that checks in a browser draws the same. They are those that station_check prints,
which stand in the file as they are; nothing is computed of them but where they are drawn.

Python 3.10 or later is all it needs, and residuals.html beside it.
"""

import argparse
import csv
import io
import re
import sys
from html import escape
from pathlib import Path

# The name by which this script was called, for what it says.
SCRIPT = Path(sys.argv[0]).name

# The page that is filled in: page/scripts.py of the sources makes it.
PAGE = Path(__file__).resolve().with_suffix(".html")
PLACES = re.compile("@(STATION|RESIDUALS)@")

# What station_check prints: its row of titles, a residual in mgon, and an angle in gon. The page has
# some of its columns.
TITLES = (
    "station,set,target,face one,face two,direction,2c,2i,adjusted,residual"
    ",zenith one,zenith two,zenith mean"
).split(",")
SHOWN = "set,target,direction,adjusted,residual".split(",")
IN_MGON = re.compile(r"-?[0-9]+\.[0-9]{3}")
IN_GON = re.compile(r"[0-9]+\.[0-9]{6}")


class Refused(Exception):
    """Why nothing is drawn."""


def is_further(row: list[str]) -> bool:
    """Whether a row is of no observation, but of the field file: it has three cells, and empty ones."""
    return len(row) == len(TITLES) and not any(row[3:])


def is_observation(row: list[str]) -> bool:
    """Whether a row may be that of an observation."""
    if len(row) != len(TITLES):
        return False
    # (a row that was cut off has no whole last cell)
    is_whole = IN_GON.fullmatch(row[-1]) is not None
    return is_whole and IN_MGON.fullmatch(row[TITLES.index("residual")]) is not None


def residuals_in(printed: str) -> str:
    """The columns that the page has, of what 'station_check report --csv' printed; another text is
    refused."""
    titles, *rows = [row for row in csv.reader(io.StringIO(printed)) if row] or [[]]
    rows = [row for row in rows if not is_further(row)]
    if not rows:
        raise Refused("standard input has no residuals: nothing is drawn")
    is_twice = len({tuple(row[:3]) for row in rows}) < len(rows)
    if titles != TITLES or is_twice or not all(map(is_observation, rows)):
        raise Refused("standard input is not what 'station_check report --csv' prints")
    places, text = [TITLES.index(title) for title in SHOWN], io.StringIO()
    shown = ([row[place] for place in places] for row in [titles, *rows])
    csv.writer(text, lineterminator="\n").writerows(shown)
    return text.getvalue()


def drawn(station: str, residuals: str) -> str:
    """The page that shows these residuals of a station."""
    values = {"STATION": escape(station), "RESIDUALS": escape(residuals)}
    return PLACES.sub(lambda place: values[place[1]], PAGE.read_text(encoding="utf-8"))


def command_line() -> argparse.ArgumentParser:
    parser = argparse.ArgumentParser(
        description="Draws the residuals of a station, in mgon, as a page on standard output, "
        "which any browser opens. What 'station_check report --csv' printed is read from standard "
        "input.",
        epilog="Example: station_check report --csv FIELD.gsi STATION | %(prog)s STATION "
        "> PICTURE.html. Exit status: 0 drawn, 1 not drawn (standard error says why), 2 a mistake "
        "on the command line.",
    )
    parser.add_argument("station", metavar="STATION", help="the station's name, for the heading")
    return parser


def main() -> None:
    station = command_line().parse_args().station
    if isinstance(sys.stdin, io.TextIOWrapper):
        sys.stdin.reconfigure(encoding="utf-8", errors="replace", newline=None)
    if isinstance(sys.stdout, io.TextIOWrapper):
        sys.stdout.reconfigure(encoding="utf-8", errors="replace", newline="\n")
    try:
        print(drawn(station, residuals_in(sys.stdin.read())), end="")
    except (Refused, csv.Error, OSError) as why:
        sys.exit(f"{SCRIPT}: {why}")


if __name__ == "__main__":
    main()
