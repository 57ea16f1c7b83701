"""The residuals of a station, of the rows of its report: the calls of the page and of the library hand
out so many of the columns that `report --csv` prints."""

import csv
import io
from pathlib import Path
from typing import Any

from program import Answer, answer_of

# The columns, by their places.
PLACES = [1, 2, 5, 8, 9]

AS_ROWS = ["report", "--csv"]

# What is told in other rows, or beside them, than those whose columns the calls hand out.
OF_OTHER_ROWS = {"--decimal-comma", "--sha256"}


def residuals_in(rows: bytes) -> bytes:
    """The columns of residuals of the rows of a report; nothing where there are none."""
    text = io.StringIO()
    found = csv.reader(io.StringIO(rows.decode("latin-1"), newline=""))
    columns = ([row[place] for place in PLACES] for row in found)
    csv.writer(text, lineterminator="\n").writerows(columns)
    return text.getvalue().encode("latin-1")


def of_residuals(answer: Answer) -> Answer:
    """What is answered where a report as rows has this answer, and its residuals are asked for."""
    status, rows, said = answer
    return status, residuals_in(rows), said


def answer_of_residuals(field: str | Path, *words: str) -> Answer:
    """The answer of the program to a report as rows, of which the columns of residuals are left."""
    return of_residuals(answer_of([*AS_ROWS, field, *words]))


def as_call(case: Any) -> Any:
    """A case as the page and the library have it: that of a report as rows is one of their residuals."""
    if case.args[:2] != AS_ROWS or OF_OTHER_ROWS.intersection(case.args):
        return case
    return case._replace(args=["residuals", *case.args[2:]], expected=of_residuals(case.expected))
