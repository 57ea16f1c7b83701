"""Runs of the program beside the model's answers.

With SWEEP in the environment whole sweeps are run, not samples of them.
"""

from fractions import Fraction
from pathlib import Path
from typing import Any, Iterable, NamedTuple

import model
from program import EXAMPLE, EXAMPLE_TABLE, SWEEP, Answer, ProgramTest, answer_of, side_by_side

FIELD = EXAMPLE.read_bytes()
SHEET = model.means(FIELD, b"S1")[1]
TABLE = EXAMPLE_TABLE.read_bytes()


class Case(NamedTuple):
    """One run: a command, the bytes of its files, and its options. `sheet` is the sheet or the
    table of directions."""

    name: str
    command: str
    gsi: bytes
    sheet: bytes = b""
    station: str | None = "S1"  # of `mark` none where it isn't stated
    limits: model.Limits = model.Limits()
    residual: int | None = None
    decimals: int = model.USUAL_DECIMALS
    within: int | None = None
    degrees: bool = False
    stated: model.StatedSets = model.StatedSets()  # of `mark`
    decimal_comma: bool = False
    as_json: bool = False  # of `differences`
    left_out: tuple[int, ...] = ()  # of `change`: the numbers of lines
    names: tuple[tuple[int, str], ...] = ()  # of `change`: numbers of lines, and names of points

    def expected(
        self, gsi: Path = Path("field.gsi"), sheet: Path = Path("table.csv")
    ) -> Answer:
        """What the model answers, of files at these paths."""
        name = (self.station or "").encode()
        limits, residual = self.limits, self.residual
        if self.command == "mark":
            stated_name = None if self.station is None else name
            return model.marked(self.gsi, stated_name, stated=self.stated)
        if self.command == "change":
            names = [(number, name.encode()) for number, name in self.names]
            return model.changed(self.gsi, self.left_out, names)
        if self.command == "words":
            return model.words(self.gsi)
        if self.command == "list":
            return model.listed(self.gsi, limits)
        if self.command == "list --csv":
            return model.listed_rows(self.gsi, limits, decimal_comma=self.decimal_comma)
        if self.command == "means":
            return model.means(self.gsi, name, limits)
        formed: dict[str, Any] = {"residual": residual, "decimal_comma": self.decimal_comma}
        if self.command == "directions":
            return model.directions(self.gsi, name, limits, self.decimals, **formed)
        if self.command == "differences":
            formed["as_json"] = self.as_json
            return model.differences(self.gsi, name, self.sheet, limits, self.form(), **formed)
        if self.command == "report":
            return model.reported(self.gsi, bytes(gsi), name, limits, residual=residual)
        if self.command == "report --csv":
            return model.reported_rows(self.gsi, name, limits, **formed)
        if self.command == "report --table":
            table = model.ReportTable(bytes(sheet), self.sheet, self.within, self.form())
            path = bytes(gsi)
            return model.reported(self.gsi, path, name, limits, table=table, residual=residual)
        if self.command == "compare":
            units = self.within, self.form()
            return model.compared(self.gsi, name, self.sheet, limits, *units, residual=residual)
        return model.check(self.gsi, self.sheet, limits, residual=residual)

    def form(self) -> model.TableForm:
        """How its table is read."""
        return model.TableForm("degrees" if self.degrees else "gon")

    def args(self, gsi: Path, sheet: Path) -> list:
        """The words of its command line, over these paths."""
        options = [
            f"--two-c={self.limits.two_c}",
            f"--two-i={in_mgon(self.limits.two_i, model.FACE_UNIT)}",
        ]
        if self.residual is not None:
            options.append(f"--residual={in_mgon(self.residual, model.RESIDUAL_UNIT)}")
        if self.within is not None:
            options.append(f"--within={in_mgon(self.within, model.TABLE_UNIT)}")
        if self.degrees:
            options.append("--degrees")
        if self.decimal_comma:
            options.append("--decimal-comma")
        if self.as_json:
            options.append("--json")
        if self.command == "mark":
            named = [] if self.station is None else [f"--station={self.station}"]
            return ["mark", *named, *self.stated.options(), gsi]
        if self.command == "change":
            left_out = [f"--leave-out={number}" for number in self.left_out]
            names = [f"--rename={number}={name}" for number, name in self.names]
            return ["change", *left_out, *names, gsi]
        return {
            "words": ["words", gsi],
            "list": ["list", *options, gsi],
            "list --csv": ["list", "--csv", *options, gsi],
            "means": ["means", *options, "--", gsi, self.station],
            "directions": [
                *["directions", *options, f"--decimals={self.decimals}", "--", gsi, self.station]
            ],
            "differences": ["differences", *options, "--", gsi, self.station, sheet],
            "report": ["report", *options, "--", gsi, self.station],
            "report --csv": ["report", "--csv", *options, "--", gsi, self.station],
            "report --table": ["report", f"--table={sheet}", *options, "--", gsi, self.station],
            "compare": ["compare", *options, "--", gsi, self.station, sheet],
            "check": ["check", *options, gsi, sheet],
        }[self.command]


def in_mgon(limit: int, unit: Fraction) -> str:
    """A limit as people state it, with as many decimals as it needs."""
    thousandths = int(limit * unit * 1000)
    return f"{thousandths // 1000}.{thousandths % 1000:03}".rstrip("0").rstrip(".") + "mgon"


def sample(cases: Iterable[Case], step: int) -> list[Case]:
    """Every so-many-th case, and all of them in a sweep."""
    cases = list(cases)
    return cases if SWEEP else cases[::step]


class AgainstModel(ProgramTest):
    def field(self, place: int) -> Path:
        """The path of the field file of a case."""
        return self.folder / f"{place}.gsi"

    def sheet(self, place: int) -> Path:
        """The path of its sheet or table."""
        return self.folder / f"{place}.csv"

    def answer(self, place: int, case: Case) -> Answer:
        """What the program answers, over files of this run alone."""
        gsi, sheet = self.field(place), self.sheet(place)
        gsi.write_bytes(case.gsi)
        sheet.write_bytes(case.sheet)
        answer = answer_of(case.args(gsi, sheet))
        gsi.unlink()
        sheet.unlink()
        return answer

    def compare(self, cases: Iterable[Case]) -> list[Answer]:
        """Runs all cases and gives the program's answers; fails where the model has another."""
        cases, found = list(cases), list[Answer]()
        self.assertTrue(cases)
        answers = side_by_side(self.answer, range(len(cases)), cases)
        for place, (case, answer) in enumerate(zip(cases, answers, strict=True)):
            found.append(answer)
            with self.subTest(case.name, gsi=case.gsi[:2000], sheet=case.sheet[:2000]):
                self.assertEqual(case.expected(self.field(place), self.sheet(place)), answer)
        return found
