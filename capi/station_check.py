"""The proved calls of station_check, by its shared library.

    import station_check

    try:
        print(station_check.compare(gsi, "P7", table))
    except station_check.Refused as refused:
        print(refused.line, refused.explanation(), sep="\\n")

Whole files are bytes, as read, or another buffer of them, as a bytearray or a memoryview. A call
answers what the command of its name prints, a single line without its line feed, and raises Refused
where the command refuses; `residuals` has some columns of `report --csv`. What `directions`,
`residuals`, `differences` and `list` answer becomes exact numbers by `direction_rows`,
`residual_rows`, `difference_rows` and `observation_rows`, and what `report --csv` prints by
`reading_rows`; so the line of `compare` by `agreement_numbers`.

Limits have the units of the command's options; one that is out of its range, or a name that no
station can have where it must be one, is a ValueError. Only `check` takes a limit of residuals: for
the others it is 10 mgon.

A table of directions states gon, or by its `unit` "degrees", or "dmmss", which is two digits of
minutes after the point and then the seconds. `columns` are those of names and of directions,
counted from 1, as (2, 6), or by their titles, as ("Target", "Hz"); where none are stated the table
has two, or the one pair of its columns that fits is found. The `note` of the answer, or of a
refusal, tells which columns were read, and how much was passed over, where there are more than two;
and another unit in which a table that is apart agrees.

The library is the one that STATION_CHECK_LIBRARY names, else that of the installation which this
file belongs to, else the one that the system finds.
"""

from __future__ import annotations

import csv
import ctypes
import operator
import os
import re
from decimal import Decimal
from pathlib import Path
from typing import Iterator, Mapping, NamedTuple, Sequence

__version__ = "1.0.0"

LIBRARY = "libstation_check.so.1"

# The limits of face differences that are usual, in units of 0.01 mgon.
FACES = 2000

# What a call answers.
_DONE, _REFUSED, _OUT_OF_RANGE, _TOO_LITTLE_ROOM = range(4)

# The units of a table's directions, by what they are called.
_UNITS = {"gon": 0, "degrees": 1, "dmmss": 2}

# The languages of a text, by the numbers by which the library knows them.
_LANGUAGES = {"en": 0, "de": 1, "fr": 2}


class _Range(NamedTuple):
    """From which number to which a parameter goes, and what one of it is."""

    least: int
    most: int
    unit: str = ""

    def __str__(self) -> str:
        return f"{self.least} to {self.most}{self.unit and f', in units of {self.unit}'}"


# The numbers that are stated, by the names of their parameters: each of two columns is one, and
# each number of sets or of targets.
_RANGES = {
    "two_c": _Range(0, 1_000_000, "0.01 mgon"),
    "two_i": _Range(0, 1_000_000, "0.01 mgon"),
    "residual": _Range(0, 2_000, "0.005 mgon"),
    "within": _Range(0, 1_000_000, "0.001 mgon"),
    "decimals": _Range(1, 8),
    "columns": _Range(1, 999_999),
    "sets": _Range(1, 40),
    "targets": _Range(1, 100),
}

# What a name may be.
_NAME = "1 to 16 letters, digits and signs of ASCII"

# What two columns are.
_COLUMNS = 'columns are two: of names and of directions, as (2, 6) or ("Target", "Hz")'

# What can still be wrong of what a call is given, where all numbers and names are in their range.
_OF_JOBS = "state a code that is none of 10, 20 and 30, and one number of each station"
_BEYOND = {
    "mark": _OF_JOBS,
    "mark_rows": _OF_JOBS,
    "change": f"state numbers of lines from 1, and names of {_NAME}",
}

# The line of an agreement; and of `list` that of a station or of an observation.
_AGREEMENT = re.compile(
    r"agrees (.*): (\d+) sets?, (\d+) targets?, within ([\d.]+) mgon, limit ([\d.]+) mgon, "
    r"greatest residual ([\d.]+) mgon"
)
_STATION = re.compile(r"station (.*): \d+ sets?, \d+ targets?, \d+ directions?")
_OBSERVATION = re.compile(r"set (\d+), target (.*): p (\d+), 2c (-?\d+), 2i (-?\d+)")

# The titles of the place of a refusal.
_PLACE = "what,number,row,first,end,meant_first,meant_end"

# A text is given so many bytes at least, and so many times more where that was too little.
_ROOM, _MORE = 1 << 16, 8


class _Reply(NamedTuple):
    """What a call answers: its status, its text, and what it says beside it, if there are two."""

    status: int
    text: bytes
    beside: bytes = b""


class Refused(Exception):
    """The first fault that was found: `line` is the program's, and `text` what it wrote before,
    which is empty but of `words`, and of `mark` what is told of each station. `note` is that of a
    table. `explanation()` says what the fault means, and what to do."""

    def __init__(self, line: str, text: str = "", note: str = "") -> None:
        super().__init__(line)
        self.line = line
        self.text = text
        self.note = note

    def explanation(self) -> str:
        """What `explain` says of the fault; nothing, where it knows none of that name."""
        try:
            return explain(self.line)
        except Refused:
            return ""


class Noted(str):
    """What is answered of a table of directions, and the table's note, without its line feed."""

    note: str

    def __new__(cls, text: str, note: str = "") -> Noted:
        told = super().__new__(cls, text)
        told.note = note
        return told


# The bytes of a file.
File = bytes | bytearray | memoryview

# A number of each station, or of single ones by their names, where None stands for each other one.
Stated = int | Mapping[str | None, int] | None


class Marked(NamedTuple):
    """A copy with codes put in, and what was recognized."""

    copy: bytes
    notes: str


class MarkedRows(NamedTuple):
    """A copy with codes put in, and what was recognized as rows."""

    copy: bytes
    rows: str


class Agreement(NamedTuple):
    """How far a table is apart, the limit that this was held to, and the greatest residual: in
    mgon."""

    station: str
    sets: int
    targets: int
    within: Decimal
    limit: Decimal
    greatest_residual: Decimal


class Observation(NamedTuple):
    """A two-face direction, in gon, with its face differences, in mgon: all exact."""

    station: str
    set: int
    target: str
    direction: Decimal
    two_c: Decimal
    two_i: Decimal


class Reading(NamedTuple):
    """What was read of a target in both faces in a set, its mean, which is the two-face direction,
    and the adjusted direction, turned as the set was, in gon; face differences and residual in
    mgon; the zenith angles of both faces and their mean, in gon."""

    station: str
    set: int
    target: str
    face_one: Decimal
    face_two: Decimal
    direction: Decimal
    two_c: Decimal
    two_i: Decimal
    adjusted: Decimal
    residual: Decimal
    zenith_one: Decimal
    zenith_two: Decimal
    zenith_mean: Decimal


class Residual(NamedTuple):
    """A two-face direction and the adjusted one, which is turned as the set was, in gon; and this
    less that, in mgon."""

    set: int
    target: str
    direction: Decimal
    adjusted: Decimal
    residual: Decimal


class Difference(NamedTuple):
    """What a table states of a target and its least-squares direction, in gon; in mgon the
    difference of both after the rotation that makes the largest smallest, and that less the median
    of all. Of a target that the table lacks the least-squares direction is all; the rest is None."""

    target: str
    stated: Decimal | None
    least_squares: Decimal
    difference: Decimal | None
    from_the_median: Decimal | None


class Verdict(NamedTuple):
    """Whether a table agrees: how far it is apart, the limit that this was held to, and of one that
    agrees the greatest residual, in mgon."""

    agrees: bool
    apart: Decimal
    limit: Decimal
    greatest_residual: Decimal | None


class Place(NamedTuple):
    """What the line of a refusal names, and where that stands: `what` it is, as `station_check.h`
    says, its number from 1, its row among all where it is counted by its kind, its bytes as a part
    of the file, and those of them that are meant, as a word; the places of bytes are None of what
    stands in no file, or is not there."""

    what: str
    number: int
    row: int | None
    first: int | None
    end: int | None
    meant_first: int | None
    meant_end: int | None


class Columns(NamedTuple):
    """The columns of names and of directions, from 1, by which a table was read, and what was passed
    over: rows before, among and after those of targets, and units."""

    names: int
    directions: int
    before: int
    among: int
    after: int
    units: int


class Table(NamedTuple):
    """All of a table that was compared: the line of the agreement, or that it is apart, the verdict
    in numbers, the columns, which are None where it was read as two, the text of `differences`, the
    report with the table, and the table's note."""

    line: str
    verdict: Verdict
    columns: Columns | None
    differences: str
    report: str
    note: str


class Station(NamedTuple):
    """All of a station: the texts of `directions` and `report`, the observations that `report --csv`
    prints, and a row of how accurate it is: the degrees of freedom, the standard deviations of one
    two-face direction and of each adjusted direction in mgon, and the sum of the squares of all
    residuals in mgon^2. Where there are no degrees the others are empty, and that of each adjusted
    direction is where a set lacks a target. Of all 2c and of all 2i there is a row of their mean, half
    of it, and the greatest less the least, in mgon."""

    directions: str
    rows: str
    accuracy: str
    faces: str
    report: str


class Listed(NamedTuple):
    """The rows that `list --csv` prints, and how many readings went unchecked since no station is
    listed."""

    rows: str
    unchecked: int


def check(
    gsi: File,
    sheet: File,
    *,
    two_c: int = FACES,
    two_i: int = FACES,
    residual: int | None = None,
) -> str:
    """The line of the acceptance; `residual` limits the residuals, in half units of 0.005 mgon."""
    numbers = [*_numbers(two_c=two_c, two_i=two_i), *_stated(residual=residual)]
    return _line(_answer("check", [gsi, sheet], numbers))


def compare(
    gsi: File,
    station: str,
    table: File,
    *,
    two_c: int = FACES,
    two_i: int = FACES,
    within: int | None = None,
    unit: str = "gon",
    columns: tuple[int, int] | tuple[str, str] | None = None,
) -> Noted:
    """The line of the agreement, with the greatest residual; `within` is in units of 0.001 mgon,
    and if it is None what is usual for the decimals of the table."""
    faces = _numbers(two_c=two_c, two_i=two_i)
    numbers = [*faces, *_form(unit, columns, table), *_stated(within=within)]
    told = _told("compare", [gsi, table, _text(station)], numbers)
    return Noted(told.removesuffix("\n"), told.note)


def differences(
    gsi: File,
    station: str,
    table: File,
    *,
    two_c: int = FACES,
    two_i: int = FACES,
    unit: str = "gon",
    columns: tuple[int, int] | tuple[str, str] | None = None,
    decimal_comma: bool = False,
) -> Noted:
    """The differences of the table, target by target, after the rotation that makes the largest
    smallest: exactly rounded, however large they are. The table may lack targets if it states two or
    more: their rows have the least-squares direction alone."""
    numbers = [*_numbers(two_c=two_c, two_i=two_i), *_form(unit, columns, table)]
    call = "comma_differences" if decimal_comma else "differences"
    return _told(call, [gsi, table, _text(station)], numbers)


def table(
    gsi: File,
    station: str,
    table: File,
    path: str,
    table_path: str,
    *,
    two_c: int = FACES,
    two_i: int = FACES,
    within: int | None = None,
    unit: str = "gon",
    columns: tuple[int, int] | tuple[str, str] | None = None,
) -> Table:
    """All of a table beside its station, of one reading of each file and one adjustment, whether it
    agrees or is apart; its report names both files by these paths."""
    faces = _numbers(two_c=two_c, two_i=two_i)
    numbers = [*faces, *_form(unit, columns, table), *_stated(within=within)]
    paths = os.fsencode(path), os.fsencode(table_path)
    reply = _call("table", [gsi, paths[0], table, paths[1], _text(station)], numbers, texts=2)
    parts = {title: os.fsdecode(part) for title, part in _parts(reply.text)}
    line = parts["line"].removesuffix("\n")
    if "report" not in parts:
        raise Refused(line)
    verdict, read_by = _verdict(parts["verdict"]), _columns(parts["columns"])
    return Table(line, verdict, read_by, parts["differences"], parts["report"], _line(reply.beside))


def directions(
    gsi: File,
    station: str,
    *,
    two_c: int = FACES,
    two_i: int = FACES,
    decimals: int = 6,
    decimal_comma: bool = False,
) -> str:
    """The table of the station's least-squares directions, in gon, exactly rounded."""
    numbers = _numbers(two_c=two_c, two_i=two_i, decimals=decimals)
    call = "comma_directions" if decimal_comma else "directions"
    return _answer(call, [gsi, _text(station)], numbers).decode()


def comma_rows(gsi: File, station: str, *, two_c: int = FACES, two_i: int = FACES) -> str:
    """The rows of the station's report with semicolons between cells and decimal commas: for a
    spreadsheet that is set to German or French."""
    numbers = _numbers(two_c=two_c, two_i=two_i)
    return _answer("comma_rows", [gsi, _text(station)], numbers).decode()


def residuals(gsi: File, station: str, *, two_c: int = FACES, two_i: int = FACES) -> str:
    """The residuals of the station, observation by observation, in mgon, exactly rounded."""
    numbers = _numbers(two_c=two_c, two_i=two_i)
    return _answer("residuals", [gsi, _text(station)], numbers).decode()


def report(
    gsi: File,
    station: str,
    path: str,
    *,
    two_c: int = FACES,
    two_i: int = FACES,
    language: str = "en",
) -> str:
    """The report of the station's sets in English, in German ("de") or in French ("fr"), which names
    the field file by this path."""
    numbers = [*_numbers(two_c=two_c, two_i=two_i), _language(language)]
    return os.fsdecode(_answer("report", [gsi, os.fsencode(path), _text(station)], numbers))


def station(
    gsi: File,
    station: str,
    path: str,
    *,
    two_c: int = FACES,
    two_i: int = FACES,
    decimals: int = 6,
) -> Station:
    """All of a station, of one reading of the file and one adjustment; its report names the field
    file by this path."""
    numbers = _numbers(two_c=two_c, two_i=two_i, decimals=decimals)
    text = _answer("station", [gsi, os.fsencode(path), _text(station)], numbers)
    return Station(**{title: os.fsdecode(part) for title, part in _parts(text)})


def means(gsi: File, station: str, *, two_c: int = FACES, two_i: int = FACES) -> str:
    """The sheet of the station, whose sets must be complete."""
    numbers = _numbers(two_c=two_c, two_i=two_i)
    return _answer("means", [gsi, _text(station)], numbers).decode()


def list(gsi: File, *, two_c: int = FACES, two_i: int = FACES) -> str:
    """The stations, their two-face directions and face differences."""
    return _answer("list", [gsi], _numbers(two_c=two_c, two_i=two_i)).decode()


def list_rows(gsi: File, *, two_c: int = FACES, two_i: int = FACES) -> Listed:
    """The two-face directions of the stations as rows."""
    parts = dict(_parts(_answer("list_rows", [gsi], _numbers(two_c=two_c, two_i=two_i))))
    return Listed(parts["rows"].decode(), int(parts["unchecked"]))


def words(gsi: File) -> str:
    """The words of the field file, one a line; a refusal has those before the fault as `text`."""
    reply = _call("words", [gsi], [], texts=2)
    if reply.status == _REFUSED:
        raise Refused(_line(reply.beside), reply.text.decode())
    return reply.text.decode()


def mark(
    gsi: File,
    station: str | None = None,
    *,
    sets: Stated = None,
    targets: Stated = None,
    same_set_up: bool = False,
    again: bool = False,
    station_code: str | None = None,
    others: bool = False,
) -> Marked:
    """A copy of a job that was recorded without codes, with codes put in. `station` names the one
    station of a job whose lines name none. `sets` is how many sets were read to the end, and
    `targets` how many targets they have: a number of each station, or a mapping from names of
    stations to theirs, where None stands for each other one. With `same_set_up` a set-up line that
    names the open station begins nothing, and with `again` a name that comes again is another
    set-up. Each block of the code `station_code` begins a station. With `others` the readings of
    stations that aren't recognized stay outside of the sets, and the others are marked."""
    flags = (same_set_up, again, others)
    reply = _marking("mark", gsi, station, station_code, sets, targets, flags)
    if reply.status == _REFUSED:
        notes, line = _told_before(reply.beside)
        raise Refused(line, notes)
    return Marked(reply.text, reply.beside.decode())


def mark_rows(
    gsi: File,
    station: str | None = None,
    *,
    sets: Stated = None,
    targets: Stated = None,
    same_set_up: bool = False,
    again: bool = False,
    station_code: str | None = None,
    others: bool = False,
) -> MarkedRows:
    """The copy of `mark`, and as rows what was recognized: of each station first "set-up", and of
    each thing that is told two numbers and two names, as `station_check.h` says. A refusal has the
    rows of the stations that were judged as `text`."""
    flags = (same_set_up, again, others)
    reply = _marking("mark_rows", gsi, station, station_code, sets, targets, flags)
    if reply.status == _REFUSED:
        raise Refused(_line(reply.text), reply.beside.decode())
    return MarkedRows(reply.text, reply.beside.decode())


def change(gsi: File, changes: Mapping[int, str | None]) -> bytes:
    """A copy of a field file in which just these lines are changed, each by its number: it is left
    out where no name is given, else its point has that name. Lines of blanks don't count."""
    if not all(name is None or name.isprintable() for name in changes.values()):
        raise ValueError("a line feed in a name would be another change")
    lines = [str(n) if changes[n] is None else f"{n}={changes[n]}" for n in sorted(changes)]
    return _answer("change", [gsi, _text("\n".join(lines))], [])


def digest(file: File, name: str) -> str:
    """The line that sha256sum prints of a file of this name."""
    return os.fsdecode(_answer("digest", [file, os.fsencode(name)], [])).removesuffix("\n")


def explain(line: str = "") -> str:
    """What the fault means that the line of a refusal names; of no line, all names of faults."""
    return _answer("explain", [_text(line)], []).decode()


def instrument(gsi: File, language: str = "en") -> str:
    """The lines that a report in English, in German ("de") or in French ("fr") has of what a field
    file recorded of instrument and time, in its words 12, 13, 17, 18 and 19, as they stand."""
    return _answer("instrument", [gsi], [_language(language)]).decode()


def place(line: str, gsi: File, other: File = b"") -> Place | None:
    """Where the line of a refusal stands, in the field file or in the sheet or the table of the call
    that refused; None where it names nothing. Of `no station` it is a sheet's first row: pass no
    table with that line."""
    rows = _rows_below(_PLACE, _answer("place", [_text(line), gsi, other], []).decode())
    for what, number, *places in rows:
        return Place(what, int(number), *(int(one) if one else None for one in places))
    return None


def agreement_numbers(line: str) -> Agreement:
    """The numbers of the line that `compare` answered."""
    found = _AGREEMENT.fullmatch(line)
    if not found:
        raise ValueError(f"no line of what `compare` answers: {line!r}")
    return Agreement(found[1], int(found[2]), int(found[3]), *map(Decimal, found.group(4, 5, 6)))


def observation_rows(text: str) -> Sequence[Observation]:
    """The observations that `list` answered, as exact numbers."""
    return [*_observations(text)]


def direction_rows(text: str) -> Mapping[str, Decimal]:
    """The directions that `directions` answered, in gon: of each target its own."""
    return {target: Decimal(direction) for target, direction in csv.reader(text.splitlines())}


def reading_rows(text: str) -> Sequence[Reading]:
    """The rows of observations that the command `report --csv` prints, as numbers."""
    titles = (
        "station,set,target,face one,face two,direction,2c,2i,adjusted,residual"
        ",zenith one,zenith two,zenith mean"
    )
    return [
        Reading(name, int(nth), target, *map(Decimal, rest))
        for name, nth, target, *rest in _rows_below(titles, text)
        if rest != [""] * 10
    ]


def residual_rows(text: str) -> Sequence[Residual]:
    """The rows that `residuals` answered, as numbers."""
    rows = _rows_below("set,target,direction,adjusted,residual", text)
    return [Residual(int(nth), target, *map(Decimal, angles)) for nth, target, *angles in rows]


def difference_rows(text: str) -> Sequence[Difference]:
    """The rows that `differences` answered, as numbers."""
    rows = _rows_below("target,stated,least squares,difference,from the median", text)
    return [
        Difference(target, _number(stated), Decimal(least), _number(difference), _number(from_median))
        for target, stated, least, difference, from_median in rows
    ]


def _number(cell: str) -> Decimal | None:
    """The number of a cell; None of an empty one."""
    return Decimal(cell) if cell else None


def _verdict(text: str) -> Verdict:
    """The verdict of a row of which the numbers are in units of 0.001 mgon."""
    [row] = csv.DictReader(text.splitlines())
    apart, limit = (Decimal(row[title]).scaleb(-3) for title in ("apart", "limit"))
    greatest = Decimal(row["greatest"]).scaleb(-3) if row["greatest"] else None
    return Verdict(row["verdict"] == "agrees", apart, limit, greatest)


def _columns(text: str) -> Columns | None:
    """The columns of a row, where there is one."""
    _, *rows = csv.reader(text.splitlines())
    return Columns(*map(int, rows[0])) if rows else None


def _observations(text: str) -> Iterator[Observation]:
    """The observations of a list, one by one."""
    station = ""
    for line in text.splitlines():
        if named := _STATION.fullmatch(line):
            station = named[1]
        elif found := _OBSERVATION.fullmatch(line):
            # (p counts 0.005 mgon, face differences 0.01 mgon)
            direction, two_c, two_i = map(Decimal, found.group(3, 4, 5))
            angles = (5 * direction).scaleb(-6), two_c.scaleb(-2), two_i.scaleb(-2)
            yield Observation(station, int(found[1]), found[2], *angles)
        else:
            raise ValueError(f"no line of what `list` answers: {line!r}")


def _rows_below(titles: str, text: str) -> Sequence[Sequence[str]]:
    """The rows of a text below its titles, which must be these."""
    first, *lines = text.splitlines() or [""]
    if first != titles:
        raise ValueError(f"these rows have the titles {first!r}, and not {titles!r}")
    return [*csv.reader(lines)]


def _bytes(data: File) -> bytes:
    """The bytes of a file. A text has none of its own: its encoding would be a guess."""
    if isinstance(data, bytes):
        return data
    try:
        return bytes(memoryview(data))
    except TypeError:
        what = type(data).__name__
        raise TypeError(f"a file is bytes, as open(.., 'rb').read() has them; not {what}") from None


def _text(text: str) -> bytes:
    """The bytes of a name or a line."""
    if not isinstance(text, str):
        raise TypeError(f"a name or a line is a str, and not {type(text).__name__}")
    return text.encode()


def _name(parameter: str, name: str | None) -> bytes:
    """The bytes of what may be the name of a station; none, where none is stated."""
    if name is None:
        return b""
    said = _text(name)
    if not (1 <= len(said) <= 16 and said.isascii() and name.isprintable()):
        raise ValueError(f"{parameter} is {name!r}: state {_NAME}")
    return said


def _whole(parameter: str, value: int) -> int:
    """A number that is stated, in its range."""
    if isinstance(value, bool) or not hasattr(value, "__index__"):
        raise TypeError(f"{parameter} is {value!r}: state a whole number")
    number, its = operator.index(value), _RANGES[parameter]
    if not its.least <= number <= its.most:
        raise ValueError(f"{parameter} is {number}: state {its}")
    return number


def _numbers(**stated: int) -> Sequence[ctypes.c_uint32]:
    """Numbers by the names of their parameters, as the library takes them."""
    return [ctypes.c_uint32(_whole(parameter, value)) for parameter, value in stated.items()]


def _language(language: str) -> ctypes.c_uint32:
    """A language as the library takes it."""
    if language not in _LANGUAGES:
        raise ValueError(f"language is {language!r}: state one of {', '.join(_LANGUAGES)}")
    return ctypes.c_uint32(_LANGUAGES[language])


def _lines(parameter: str, stated: Stated) -> bytes:
    """Numbers of stations as the library takes them: a line for each."""
    if stated is None:
        return b""
    if not isinstance(stated, Mapping):
        return b"%d" % _whole(parameter, stated)
    if not stated:
        raise ValueError(f"{parameter} is empty: state a number, or None")
    return b"\n".join(
        (b"" if name is None else _name(parameter, name) + b"=") + b"%d" % _whole(parameter, number)
        for name, number in stated.items()
    )


def _stated(**limit: int | None) -> Sequence[ctypes.c_uint32]:
    """A limit that need not be stated: whether one is, and which."""
    [(parameter, value)] = limit.items()
    if value is None:
        return [ctypes.c_uint32(0), ctypes.c_uint32(0)]
    return [ctypes.c_uint32(1), *_numbers(**{parameter: value})]


def _form(
    unit: str, columns: tuple[int, int] | tuple[str, str] | None, table: File
) -> Sequence[ctypes.c_uint32]:
    """How a table is to be read, as the library takes it."""
    if unit not in _UNITS:
        raise ValueError(f"unit is {unit!r}: state one of {', '.join(_UNITS)}")
    pair = (0, 0) if columns is None else _pair(columns, table)
    return [ctypes.c_uint32(number) for number in (_UNITS[unit], *pair)]


def _pair(columns: Sequence[int | str], table: File) -> Sequence[int]:
    """Two columns that are stated, by their numbers: those of a table with two titles too."""
    if isinstance(columns, (str, set)) or "" in columns:
        raise ValueError(_COLUMNS)
    titles = [_text(one) for one in columns if isinstance(one, str)]
    numbers = [_whole("columns", one) for one in columns if not isinstance(one, str)]
    if len(titles) == 2 and not numbers:
        return [int(number) for number in _answer("columns", [table, *titles], []).split(b",")]
    if titles or len(set(numbers)) != 2 or len(numbers) != 2:
        raise ValueError(_COLUMNS)
    return numbers


def _line(text: bytes) -> str:
    return text.decode().removesuffix("\n")


def _marking(
    call: str,
    gsi: File,
    station: str | None,
    station_code: str | None,
    sets: Stated,
    targets: Stated,
    flags: Sequence[bool],
) -> _Reply:
    """What comes of putting codes into a job, by what is stated of it."""
    names = [_name("station", station), _name("station_code", station_code)]
    inputs: Sequence[File] = [gsi, *names, _lines("sets", sets), _lines("targets", targets)]
    return _call(call, inputs, [ctypes.c_uint32(bool(flag)) for flag in flags], texts=2)


def _told_before(text: bytes) -> tuple[str, str]:
    """The lines before the last one, and that."""
    *told, line = text.decode().splitlines(keepends=True)
    return "".join(told), line.removesuffix("\n")


def _parts(text: bytes) -> Iterator[tuple[str, bytes]]:
    """The parts of a text: before each stands a line of its title and of how many bytes it has."""
    while text:
        line, _, rest = text.partition(b"\n")
        title, count = line.decode().split(" ")
        yield title, rest[: int(count)]
        text = rest[int(count) :]


def _answer(name: str, inputs: Sequence[File], numbers: Sequence[ctypes.c_uint32]) -> bytes:
    """The text that a call answers."""
    reply = _call(name, inputs, numbers)
    if reply.status == _REFUSED:
        raise Refused(_line(reply.text))
    return reply.text


def _told(name: str, inputs: Sequence[File], numbers: Sequence[ctypes.c_uint32]) -> Noted:
    """The text that a call answers of a table, and the note of that."""
    reply = _call(name, inputs, numbers, texts=2)
    note = _line(reply.beside)
    if reply.status == _REFUSED:
        raise Refused(_line(reply.text), note=note)
    return Noted(reply.text.decode(), note)


def _call(
    name: str, inputs: Sequence[File], numbers: Sequence[ctypes.c_uint32], texts: int = 1
) -> _Reply:
    """What a call answers, asked again with more room until that is enough."""
    given = [_bytes(data) for data in inputs]
    room = max(_ROOM, 2 * sum(map(len, given)))
    while True:
        reply = _call_within(room, name, given, numbers, texts)
        if reply.status == _OUT_OF_RANGE:
            raise ValueError(_BEYOND.get(name, "a number or a name is out of its range"))
        if reply.status != _TOO_LITTLE_ROOM:
            return reply
        room *= _MORE


def _call_within(
    room: int, name: str, inputs: Sequence[bytes], numbers: Sequence[ctypes.c_uint32], texts: int
) -> _Reply:
    """The same, with so much room for each text."""
    buffers = [ctypes.create_string_buffer(room) for _ in range(texts)]
    lengths = [ctypes.c_size_t() for _ in range(texts)]
    call = getattr(_library, f"station_check_{name}")
    call.restype = ctypes.c_uint8
    given = [
        part for data in inputs for part in (ctypes.c_char_p(data), ctypes.c_size_t(len(data)))
    ]
    outs = [
        part
        for buffer, length in zip(buffers, lengths)
        for part in (buffer, ctypes.c_size_t(room), ctypes.byref(length))
    ]
    status: int = call(*given, *numbers, *outs)
    said = [ctypes.string_at(buffer, length.value) for buffer, length in zip(buffers, lengths)]
    return _Reply(status, *said)


def _find() -> str:
    """The path of the library, or its name for the system to find."""
    if named := os.environ.get("STATION_CHECK_LIBRARY"):
        return named
    beside = Path(__file__).resolve().parents[2] / "lib" / LIBRARY
    return str(beside) if beside.exists() else LIBRARY


def _loaded() -> ctypes.CDLL:
    """The library."""
    try:
        return ctypes.CDLL(_find())
    except OSError as why:
        todo = "install the library, or name one by STATION_CHECK_LIBRARY"
        raise OSError(f"{why}: {todo}") from why


_library = _loaded()
