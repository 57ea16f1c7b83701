"""Field files, sheets and tables of directions of a fixed seed: right ones, and ones with every
kind of fault.

`python3 tests/support/generated.py [COUNT]` prints how often the model answers what over so many
files.
"""

import math
import re
import sys
from collections import Counter
from fractions import Fraction
from random import Random
from typing import Any, Iterator, Sequence

import model
import worked
from against_model import Case
from kinds import kind_of
from model import CIRCLE, HALF_CIRCLE, TURN, Limits

SEED = 20_000_002

# A target with its direction; a sight of a target in a face; a reading: a target, a direction and a
# zenith angle.
Target = tuple[str, int]
Sight = tuple[str, int]
Reading = tuple[str, int, int]

NAMES = ["A", "B", "C", "D", "S1", "S2", "10", "0", '1,"A', "A B", "-7", "x" * 8]
LINE_ENDS = ["\r\n", "\n", "\r", "\n\n", " \r\n", "   \n", "\r\n    \r\n"]
RARE_LIMITS = [Limits(0, 0), Limits(1_000_000, 1_000_000), Limits(5, 2_000), Limits(2_000, 5)]
LIMITS = [Limits()] * 5 + RARE_LIMITS

# How often a step goes wrong in a file, and how much more often where a file has few such steps.
CHANCES = [0.02, 0.01, 0.003]
RARE = 10


class FieldFile:
    """A field file that is written block by block; `chance` says how often a step goes wrong."""

    def __init__(self, random: Random, chance: float) -> None:
        self.random, self.chance = random, chance
        self.limits = random.choice(LIMITS)
        self.wide = random.choice([False, False, True, None])
        self.lines = list[str]()

    def goes_wrong(self, weight: float = 1) -> bool:
        """Whether the next step goes wrong."""
        return self.random.random() < self.chance * weight

    def word(self, index: int, information: str, sign: str, content: str) -> list[str]:
        """The parts of a word, of which one may be changed."""
        parts = [f"{index:02}", information, sign, content]
        if self.goes_wrong(0.3):
            place = self.random.randrange(4)
            old = parts[place]
            others = ["", "+", "-1", "x" * len(old), old[1:] + " ", " " * len(old)]
            parts[place] = self.random.choice(others)
        return parts

    def add(self, *words: Sequence[str]) -> None:
        """A line of these words, in the width of the file or, where it has both, in one of them."""
        wide = self.random.random() < 0.5 if self.wide is None else self.wide
        width = 16 if wide else 8
        texts = ["".join([*parts, content.rjust(width, "0")]) for *parts, content in words]
        line = ("*" if wide else "") + " ".join(texts)
        if self.goes_wrong(0.5):
            line = self.changed(line)
        self.lines.append(line)

    def changed(self, line: str) -> str:
        """The line with one change."""
        place = self.random.randrange(len(line) + 1)
        before, after = line[:place], line[place:]
        changed = [before, after, before + " " + after, before + "\t" + after[1:]]
        changed += [before + "\x7f" + after, "*" + line, "51" + line[2:], line + " 11"]
        return self.random.choice([*changed, line.ljust(1_024), line.ljust(1_025)])

    def number(self) -> str:
        """The number of the next block, in its word 11 or 41."""
        return f"{len(self.lines) + 1:04}"[-4:]

    def code(self, code: str, name: str | None = None) -> None:
        """A block of a code, with a name in word 42 or without."""
        words = [self.word(41, self.number(), "+", code)]
        if name is not None:
            words.append(self.word(42, "....", self.random.choice("++-"), name))
        if self.goes_wrong(2):
            more = self.random.choice([words[-1], self.word(42, "....", "+", "7")])
            words = self.random.choice([words[:1], [*words, more], [*words, more]])
        self.add(*words)

    def angle(self, index: int, value: int) -> list[str]:
        """The word of an angle, of which something may be wrong."""
        mode, unit, sign, text = self.random.choice(".023"), "2", "+", f"{value:08}"
        if self.goes_wrong():
            change = self.random.randrange(5)
            mode = self.random.choice("14 x") if change == 0 else mode
            unit = self.random.choice("0134") if change == 1 else unit
            sign = "-" if change == 2 else sign
            text = self.random.choice(["0000000x", "1 234567", "+1234567"]) if change == 3 else text
            text = self.random.choice(["40000000", "99999999"]) if change == 4 else text
        return self.word(index, f".1{mode}{unit}", sign, text)

    def reading(self, target: str, direction: int, zenith: int) -> None:
        """A block of a reading, of which a word may be missing or there twice."""
        words = [self.word(11, self.number(), self.random.choice("++-"), target)]
        words += [self.angle(21, direction % CIRCLE), self.angle(22, zenith)]
        if self.random.random() < 0.1:
            words.insert(self.random.randrange(1, len(words) + 1), ["31", "..00", "+", "00012345"])
        if self.goes_wrong():
            fewer = [[words[0], words[-1]], words[:2], words[:1]]
            more = [[*words, words[1]], [*words, words[-1]]]
            words = self.random.choice(fewer + more)
        self.add(*words)

    def difference(self, limit: int) -> int:
        """A face difference near a limit, or above it."""
        edges = [0, 0, 0, 1, -1, limit, -limit, self.random.randint(-limit, limit)]
        if self.goes_wrong():
            edges = [limit + 1, -limit - 1, limit * 3 + 7]
        return self.random.choice(edges)

    def pair(self, target: str, direction: int) -> tuple[Reading, Reading]:
        """The two readings of a target near a direction."""
        two_c, two_i = self.difference(self.limits.two_c), self.difference(self.limits.two_i)
        any_zenith = self.random.randrange(1, HALF_CIRCLE)
        zenith = self.random.choice([10_000_000, 10_000_000, 1, HALF_CIRCLE - 1, any_zenith])
        other = min(max(CIRCLE - zenith + two_i, HALF_CIRCLE + 1), CIRCLE - 1)
        if self.goes_wrong():
            zenith = self.random.choice([0, HALF_CIRCLE, CIRCLE])
        return (target, direction, zenith), (target, direction + HALF_CIRCLE + two_c, other)

    def one_set(self, number: int | str, targets: Sequence[Target]) -> None:
        """A set of these targets, whose readings may be in any order, missing or twice."""
        self.code("20", str(number))
        if self.goes_wrong(3):
            targets = []
        turned = self.random.randrange(CIRCLE)
        gross = 9_000 if self.goes_wrong(3) else 0

        def near(direction: int) -> int:
            error = self.random.choice([gross, 0]) + self.random.randint(-9, 9)
            return direction + turned + error

        pairs = [self.pair(target, near(direction)) for target, direction in targets]
        readings = [first for first, _ in pairs] + [second for _, second in reversed(pairs)]
        if self.random.random() < 0.3:
            self.random.shuffle(readings)
        if self.goes_wrong(RARE):
            again = [*readings, *readings[:1]]
            readings = self.random.choice([readings[:-1], readings[1:], again, again])
        for reading in readings:
            self.reading(*reading)
        self.closing()

    def closing(self) -> None:
        """What may stand between sets."""
        if self.random.random() < 0.4:
            self.code("30")
        if self.random.random() < 0.1:
            self.code("40", "remark")
        if self.random.random() < 0.1:
            self.reading("99", 1, 1)

    def station(self, name: str) -> None:
        """A station of this name, with some sets of some targets."""
        self.code("10", name)
        names = self.random.sample(NAMES, self.random.randint(1, 4))
        targets = [(target, self.random.randrange(CIRCLE)) for target in names]
        numbers: list[int | str]
        numbers = self.random.sample([1, 2, 3, 7, 12, 9_999], self.random.randint(0, 4))
        most = self.random.choice([1, len(targets), len(targets), 0])
        if self.goes_wrong(RARE):
            again = [*numbers, *numbers[:1]]
            numbers = self.random.choice([[0], [10_000], again, again, again, ["1x"], ["-1"]])
        for number in numbers:
            seen = self.random.sample(targets, self.random.randint(1, most)) if most else targets
            self.one_set(number, seen)

    def join(self) -> None:
        """Two lines in one, as where files are joined and the first has no last line end."""
        place = self.random.randrange(len(self.lines) - 1)
        self.lines[place : place + 2] = [" ".join(self.lines[place : place + 2])]

    def text(self) -> bytes:
        """The bytes of the file, in one of the forms of line ends."""
        if self.goes_wrong(2):
            self.lines = self.lines[1:]
        end = self.random.choice(LINE_ENDS)
        joined = end.join(self.lines)
        return (joined + (end if self.random.random() < 0.8 else "")).encode("latin-1")


def field_file(random: Random) -> tuple[bytes, Limits]:
    """A field file and its limits."""
    chance = random.choice([0, *CHANCES])
    field = FieldFile(random, chance)
    names = random.sample(NAMES, random.randint(1, 3))
    if field.goes_wrong(2 * RARE):
        names.append(names[0])
    for name in names:
        field.station(name)
    return field.text(), field.limits


# ---------------------------------------------------------------- jobs without codes


# How the readings of a set follow each other, by its targets: capitals in face I.
WAYS = {
    "there and back": lambda targets: [(t, 1) for t in targets] + [(t, 2) for t in targets[::-1]],
    "twice": lambda targets: [(t, face) for face in (1, 2) for t in targets],
    "by targets": lambda targets: [(t, face) for t in targets for face in (1, 2)],
}


class Job:
    """A job that is written sight by sight, as a generated file is block by block."""

    def __init__(self, random: Random) -> None:
        self.random = random
        self.lines = FieldFile(random, random.choice([0, 0, 0.003]))
        self.lines.limits = Limits()
        self.name = ""  # of the station that is open
        self.repeats = random.random() < 0.15  # the set-up line before each set

    def begin(self, name: str) -> None:
        """The beginning of a station: its set-up line, or code 7 with its name."""
        self.name = name
        if self.random.random() < 0.8:
            self.set_up(name)
        else:
            self.lines.code("7", name)

    def set_up(self, name: str) -> None:
        """A set-up line of a station."""
        more = self.random.choice([84, 85, 86, 87, 88, 88, 88])
        words = [["11", self.lines.number(), "+", name], [f"{more}", "..10", "+", "1543"]]
        self.lines.add(*words)

    def height(self, target: str) -> None:
        """A height that is measured, with a word that a set-up line has too."""
        measured = self.random.choice([["22"], ["31"], ["22", "31"]])
        words = [[index, "..00", "+", "9500000"] for index in measured]
        more = self.random.choice(["84", "86", "88"])
        point = ["11", self.lines.number(), "+", target]
        self.lines.add(point, *words, [more, "..10", "+", "1543"])

    def sight(self, target: str, face: int) -> None:
        """A reading of a target in a face."""
        direction = sum(map(ord, target)) * 100_000 + (face - 1) * HALF_CIRCLE
        error = self.random.randint(-40, 40)
        zenith = 10_000_000 if face == 1 else 30_000_000 + error
        self.lines.reading(target, direction + error, zenith)

    def leading(self, targets: Sequence[str]) -> None:
        """Sights for orientation and checks, or of a resection."""
        if self.random.random() < 0.12:
            faces = self.random.choice([[1], [1, 2], [1, 2]])
            for target in self.random.sample([*targets, "X"], self.random.randint(1, len(targets))):
                for face in faces:
                    self.sight(target, face)
            return
        chosen = self.random.choice([*targets, "X"])
        none = [list[int]()] * 6
        for face in self.random.choice([*none, [1], [1], [1, 2], [2], [1, 1], [1, 1, 1, 1]]):
            self.sight(chosen, face)

    def changed(self, sights: list[Sight]) -> list[Sight]:
        """The sights of a set, of which one may be missing, twice, changed or too many."""
        place = self.random.randrange(len(sights))
        before, one, after = sights[:place], sights[place], sights[place + 1 :]
        return self.random.choice([
            before + after,
            before + [one, one] + after,
            before + [(one[0].lower(), one[1])] + after,
            before + after + [one],
            sights + sights[:1],
            sights + sights[-1:],
            sights[: max(place, 1)],
            sights + [(one[0], 1), (one[0], 2)],
            [(target, 3 - face) for target, face in sights],
        ])

    def sets(self, targets: Sequence[str]) -> None:
        """Sets of these targets, of which some are read in another way or are no sets."""
        way = WAYS[self.random.choice(list(WAYS))]
        is_begun_in_two = self.random.random() < 0.08
        turned = self.random.random() < 0.1  # the first face changes from set to set
        other = self.random.random() < 0.04
        count = self.random.choice([0, 1, 1, 2, 2, 3])
        for number in range(count):
            if number and self.repeats and self.name:
                self.begin(self.name)
            seen = list(targets)
            if len(seen) > 2 and self.random.random() < 0.15:
                seen.remove(self.random.choice(seen[1:]))
            if number and self.random.random() < 0.2:
                seen[1:-1] = self.random.sample(seen[1:-1], len(seen[1:-1]))
            if number and self.random.random() < 0.1:
                between = self.random.sample("FGHJ", self.random.randint(1, 3))
                seen = [seen[0], *between, *seen[1:][-1:]]
            way = WAYS[self.random.choice(list(WAYS))] if other else way
            sights = way(seen)
            if is_begun_in_two != (turned and number % 2 == 1):
                sights = [(target, 3 - face) for target, face in sights]
            sights = self.changed(sights) if self.random.random() < 0.12 else sights
            for sight in sights:
                self.sight(*sight)
                if self.random.random() < 0.02:
                    self.height(sight[0])
            if self.random.random() < 0.02:
                self.details(70, [1])

    def details(self, first: int, counts: Sequence[int]) -> None:
        """Detail points, named by the numbers from this one on: as many as one of these."""
        for number in range(first, first + self.random.choice(counts)):
            self.sight(f"{number}", 1)

    def trailing(self, targets: Sequence[str]) -> None:
        """Detail points, a new target in both faces, and check sights: in face I to one target or
        all, or a pair."""
        for number in range(self.random.choice([0, 0, 0, 1, 3])):
            self.sight(f"{100 + number}", self.random.choice([1, 1, 1, 2]))
        if self.random.random() < 0.05:
            self.ending(["N"], [1, 2])
        if self.random.random() < 0.25:
            checked = self.random.choice([targets[:1], targets[:1], targets[-1:], targets])
            self.ending(checked, self.random.choice([[1], [1], [1, 2], [2, 1]]))
        self.details(110, [0, 0, 0, 0, 1, 2])

    def ending(self, targets: Sequence[str], faces: Sequence[int]) -> None:
        """Sights to these targets after the sets, in these faces."""
        for target in targets:
            for face in faces:
                self.sight(target, face)

    def station(self) -> None:
        """A station: sights before its sets, the sets, and sights after them."""
        targets = self.random.sample(["A", "B", "C", "D", "E"], self.random.randint(1, 4))
        if self.random.random() < 0.08:  # so many that they are not looked through one by one
            targets = [f"T{number}" for number in range(self.random.randint(15, 40))]
        self.details(50, [0, 0, 0, 0, 1, 5])
        self.leading(targets)
        self.sets(targets)
        self.trailing(targets)
        if self.random.random() < 0.05:
            code = self.random.choice(["10", "20", "30", "99", "7"])
            self.lines.code(code, self.random.choice([None, "1"]))


def job(random: Random) -> tuple[bytes, str | None]:
    """A job without codes, and the name of its station that is stated, if one is."""
    made = Job(random)
    stated = random.choice([None, None, "S1", "S1", "NINEBYTES", "A B"])
    if random.random() < 0.05:
        made.sight("A", 1)
    for _ in range(random.choice([1, 1, 1, 2, 2, 3]) if stated is None else 1):
        if (stated is None) != (random.random() < 0.03):
            made.begin(random.choice(["S1", "S2", "S3", "00S4", "A B", "P7", "B"]))
        made.station()
    if len(made.lines.lines) > 1 and random.random() < 0.03:
        made.lines.join()
    return made.lines.text(), stated


# ---------------------------------------------------------------- sheets


def least_sheet(random: Random, station: model.Station) -> model.Sheet:
    """The sheet of a station under some full turns."""
    turns = [random.choice([0, 0, 0, 0, 0, 1, -1, 9]) for _ in station.observations]
    directions, orientations = model.adjusted(station, turns)
    denominator = math.lcm(*[x.denominator for x in directions + orientations])
    denominator *= random.choice([1, 1, 2, 10**6])
    rows = [
        (station.sets[seen.set], station.targets[seen.target], seen.p, turn)
        for seen, turn in zip(station.observations, turns)
    ]
    return model.Sheet(
        station.name,
        denominator,
        [(name, int(value * denominator)) for name, value in zip(station.targets, directions)],
        [(number, int(value * denominator)) for number, value in zip(station.sets, orientations)],
        rows,
    )


def moved(random: Random, sheet: model.Sheet) -> model.Sheet:
    """The sheet, now and then with all of it turned, or with two orientations moved apart."""
    change, by = random.randrange(12), random.choice([1, -1, sheet.denominator, -TURN])
    directions, orientations = list(sheet.directions), list(sheet.orientations)
    if change == 0:
        directions = [(name, value + by) for name, value in directions]
        orientations = [(number, value + by) for number, value in orientations]
    elif change < 3:
        for place, sign in [(0, 1), (-1, -1)]:
            number, value = orientations[place]
            orientations[place] = number, value + sign * by
    return sheet._replace(directions=directions, orientations=orientations)


def change_row(random: Random, rows: list[model.Row]) -> None:
    """A row dropped, repeated or moved, the rest of the rows dropped, or a field changed."""
    row = random.randrange(len(rows))
    column = random.randrange(len(rows[row]))
    field = rows[row][column]
    change = random.randrange(10)
    if change == 0:
        del rows[row : random.choice([row + 1, row + 1, len(rows)])]
    elif change == 1:
        rows.insert(random.randrange(len(rows) + 1), list(rows[row]))
    elif change == 2:
        other = random.randrange(len(rows))
        rows[row], rows[other] = rows[other], rows[row]
    elif change == 3:
        rows[row] = rows[row][:column] + random.choice([[], [b"", b""]]) + rows[row][column + 1 :]
    elif re.fullmatch(rb"-?[0-9]+", field) and change < 8:
        steps = [1, -1, 1, -1, TURN, -TURN, 10**9, 10**12, 10**18, -(10**18), 10**21, 10**22]
        steps += [-int(field), -2 * int(field)]
        rows[row][column] = b"%d" % (int(field) + random.choice(steps))
    else:
        kinds = [b"sheet", b"target", b"set", b"obs"]
        numbers = [b"0", b"-0", b"+5", b"007", b"2", b"3", b" 1", b"1 ", b"1" + b"0" * 30]
        others = [b"", b" ", b"A", b"x" * 17, b"\x00", field + b"0"]
        rows[row][column] = random.choice(kinds + numbers + others)


def written(random: Random, rows: list[model.Row]) -> bytes:
    """The text of rows; fields may be quoted without need."""
    quotes = random.choice([0, 0, 0.2, 1])
    end = random.choice([b"\n", b"\n", b"\r\n", b"\r", b"\n\n"])

    def text_of(field: bytes) -> bytes:
        quoted = b'"' + field.replace(b'"', b'""') + b'"'
        return quoted if random.random() < quotes else model.field_text(field)

    text = end.join(b",".join(map(text_of, row)) for row in rows) + random.choice([end, b""])
    return random.choice([b"", b"", b"", b"\xef\xbb\xbf", b"\n"]) + text


def sheet_text(random: Random, stations: list[model.Station]) -> bytes:
    """A sheet of one of the stations, or what is left of one after some changes."""
    text = model.sheet_text(moved(random, least_sheet(random, random.choice(stations))))
    rows = list(model.records_of(text))
    if random.random() < 0.3 or abs(int(rows[0][3])) > 10**9:
        rows[0][1] = b"2"
    for _ in range(random.choice([0, 0, 1, 1, 1, 2])):
        if rows:
            change_row(random, rows)
    text = written(random, rows)
    if random.random() < 0.1:
        place = random.randrange(len(text) + 1)
        byte = random.choice([b'"', b",", b"\n", b" ", b"\xff", b""])
        text = text[:place] + byte + text[place + random.choice([0, 1]) :]
    return text


# ---------------------------------------------------------------- stations to adjust


KINDS = ["complete", "gaps", "gaps", "chain", "sessions"]


def shared_out(random: Random, count: int, parts: int) -> list[int]:
    """How many of so many things fall to each of some parts: two or more."""
    numbers = [2] * parts
    for _ in range(count - 2 * parts):
        numbers[random.randrange(parts)] += 1
    return numbers


def seen_in_sessions(random: Random, targets: list[Target], sets: int) -> list[list[Target]]:
    """What is observed in each of four sets or more, of five targets or more: sessions that observe
    their own targets again and again, and are joined by one target that all have, each to the one
    before by one target, or two by a way of two sets."""
    joint = random.choice(["common", "row", "way"] if sets >= 6 else ["common", "row"])
    parts = 2 if joint == "way" else random.randint(2, min(sets, len(targets) - 1) // 2)
    first, *others = targets
    rest = iter(others)
    own = [[next(rest) for _ in range(n)] for n in shared_out(random, len(others), parts)]
    way = [[own[0][-1], first], [first, own[1][0]]] if joint == "way" else []
    if joint == "common":
        own = [[first, *session] for session in own]
    if joint == "row":
        own = [[before[-1], *session] for before, session in zip([[first], *own], own)]
    counts = shared_out(random, sets - len(way), parts)
    seen = [session for session, count in zip(own, counts) for _ in range(count)]
    seen[counts[0] : counts[0]] = way
    if random.random() < 0.3:
        random.shuffle(seen)
    return seen


def seen_in_sets(random: Random, kind: str, targets: list[Target], sets: int) -> list[list[Target]]:
    """The targets that are observed in each set: all of them, some, two neighbours in a chain, or
    those of its session."""
    if kind == "sessions":
        return seen_in_sessions(random, targets, sets)
    if kind == "chain":
        return [targets[place : place + 2] for place in range(sets)]
    if kind == "gaps":
        return [random.sample(targets, random.randint(2, len(targets))) for _ in range(sets)]
    return [targets] * sets


def scattered(random: Random, direction: int) -> int:
    """A reading near a direction."""
    return (direction + random.randint(-30, 30)) % CIRCLE


def station_to_adjust(
    random: Random, most_sets: int = 7, most_targets: int = 9, kind: str | None = None
) -> bytes:
    """The field file of the station S1, in sets that are complete, have gaps, are a chain or fall
    into sessions; of some targets the readings lie on both sides of zero."""
    kind = kind or random.choice(KINDS)
    places = [random.randrange(CIRCLE), *(random.randrange(-20, 20) for _ in range(2))]
    directions = [random.choice([*places, random.randrange(CIRCLE)]) for _ in range(most_targets)]
    least = 5 if kind == "sessions" else 2
    most = min(most_targets, most_sets + 1) if kind == "chain" else most_targets
    targets = [(f"T{n}", hz) for n, hz in enumerate(directions[: random.randint(least, most)])]
    sets = random.randint(4 if kind == "sessions" else 1, most_sets)
    sets = len(targets) - 1 if kind == "chain" else sets
    readings = {}
    for number, seen in enumerate(seen_in_sets(random, kind, targets, sets), 1):
        begin = random.choice([0, random.randrange(CIRCLE)])
        readings[number] = [
            (name, *(scattered(random, hz + begin + turned) for turned in (0, HALF_CIRCLE)))
            for name, hz in seen
        ]
    return worked.field_file(readings)


# ---------------------------------------------------------------- tables of directions


def direction_text(direction: Fraction, decimals: int) -> bytes:
    """A direction in gon as a table states it, cut to so many decimals."""
    whole, rest = divmod(int(abs(direction) * 10**decimals), 10**decimals)
    sign = b"-" if direction < 0 else b""
    return sign + (b"%d.%0*d" % (whole, decimals, rest) if decimals else b"%d" % whole)


def exponent_text(direction: Fraction, decimals: int) -> bytes:
    """A direction in gon with an exponent, rounded so that its mantissa has so many decimals."""
    return b"%.*e" % (decimals, float(direction))


def degrees_text(random: Random, direction: Fraction) -> bytes:
    """A direction in gon as a table states it in degrees, cut to some decimals: with minutes and
    seconds by hyphens or by their signs, or with decimals."""
    degrees = direction * Fraction(9, 10)
    decimals = random.choice([0, 1, 2, 4, 6, 11])
    if random.random() < 0.3:
        return direction_text(degrees, random.choice([decimals, 9]))
    whole, rest = divmod(int(abs(degrees) * 3600 * 10**decimals), 3600 * 10**decimals)
    minutes, rest = divmod(rest, 60 * 10**decimals)
    seconds, rest = divmod(rest, 10**decimals)
    form = random.choice([b"%s%d-%02d-%02d%s", b"%s%d\xc2\xb0%02d'%02d%s\""])
    sign, more = b"-" if degrees < 0 else b"", b".%0*d" % (decimals, rest) if decimals else b""
    return form % (sign, whole, minutes, seconds, more)


def stated_of(random: Random, station: model.Station) -> list[Fraction]:
    """Directions that a program could state of a station, all turned by some angle."""
    try:
        directions = model.least_of(station)
    except model.Refusal:
        directions = [Fraction(random.randrange(CIRCLE), 10**5) for _ in station.targets]
    turned = random.choice([Fraction(0), Fraction(0), Fraction(random.randrange(CIRCLE), 10**5)])
    turned_all = [(direction + turned) % model.CIRCLE_IN_GON for direction in directions]
    return [direction - random.choice([0, 0, 0, 400]) for direction in turned_all]


def change_table_row(random: Random, rows: list[model.Row]) -> None:
    """A row dropped or repeated, or a field changed."""
    row = random.choice(rows)
    change = random.randrange(6)
    if change == 0:
        rows.remove(row)
    elif change == 1:
        rows.append(list(row))
    elif change == 2:
        row[0] = random.choice([b"", b"Z", b"x" * 17, row[0] + b" ", b" " + row[0], row[0].lower()])
    elif change == 3:
        row[:] = random.choice([row[:1], [*row, b""]])
    else:
        others = [b"1e2", b"+5", b"400", b"-400", b"401", b"399.999999999", b"-0", b"7.", b".7"]
        more = [b"", b"000", b"0.0000000000", b"0.0000000001", b".", b"7,5", b"+-1"]
        more += [b"400.000000001", b"360-00-00", b"359-59-60", b"7-60-00", b"7-5-00", b"7-05"]
        more += [b"1e-05", b"5.684341886080802e-14", b"-1.5E+02", b"4e+02", b"1e+03", b"7.00000000000001"]
        more += [b"7e", b"7e-1x", b"0-00-00.00000005"]
        more.append(b"7\xc2\xb005'00.5\"")
        row[-1] = random.choice([*others, *more, row[-1] + b"0", row[-1] + b" "])


def table_rows(random: Random, station: model.Station, degrees: bool = False) -> list[model.Row]:
    """The rows of a table of a station's directions, in any order."""
    decimals = random.choice([0, 1, 3, 4, 5, 5, 6, 6, 7, 8, 9, 12, 16])
    directions = stated_of(random, station)
    form = random.choice([direction_text, direction_text, direction_text, exponent_text])
    texts = [
        degrees_text(random, direction) if degrees else form(direction, decimals)
        for direction in directions
    ]
    rows = [list(row) for row in zip(station.targets, texts)]
    random.shuffle(rows)
    return rows


def loosely(random: Random, rows: list[model.Row]) -> bytes:
    """The rows of a table as programs write them: by any separator, with titles or without."""
    separator = random.choice([b",", b";", b"\t", b"  ", b" "])
    has_commas = separator != b"," and random.random() < 0.5
    before, after = random.choice([(b"", b""), (b" ", b""), (b"", b" "), (b"\t", b"")])
    end = random.choice([b"", b"", separator])
    lines = [b"Target" + separator + b"Hz"] if random.random() < 0.3 else []
    for row in rows:
        fields = [field.replace(b".", b",") if has_commas else field for field in row]
        lines.append((separator + before).join(fields) + after + end)
    return b"\n".join(lines) + b"\n"


def table_text(random: Random, rows: list[model.Row]) -> bytes:
    """The text of a table of these rows, as one program or another writes it."""
    return random.choice([written, loosely])(random, rows)


def table_of_station(random: Random, station: model.Station, degrees: bool = False) -> bytes:
    """A table of a station's directions."""
    return table_text(random, table_rows(random, station, degrees))


def changed_table(random: Random, station: model.Station, degrees: bool = False) -> bytes:
    """Such a table, or what is left of one after some changes."""
    rows = table_rows(random, station, degrees)
    for _ in range(random.choice([0, 0, 0, 0, 1, 1, 2])):
        if rows:
            change_table_row(random, rows)
    return table_text(random, rows)


# ---------------------------------------------------------------- cases


def divisions_in(text: bytes, name: str | None) -> list[model.Division]:
    """The divisions of the stations of a job that have some, whatever is stated."""
    divisions = []
    try:
        stations, _ = model.occupations_of(text, None if name is None else name.encode(), False)
    except model.Refusal:
        return []
    for station in stations:
        if not model.has_no_sets(station.sights):
            try:
                divisions.append(model.division_of(station.sights))
            except model.FaultOfSets:
                continue
    return divisions


def own_numbers(random: Random, number: int) -> dict[bytes, int]:
    """Numbers that are stated of single stations: mostly none, or this one or another of some."""
    names = random.sample([b"S1", b"S2", b"S3", b"S4", b"A B", b"P7", b"X"], random.choice([1, 1, 2]))
    own = {name: random.choice([number, number, number + 1]) for name in names}
    return own if random.random() < 0.3 else {}


def sets_stated(random: Random, text: bytes, name: str | None) -> model.StatedSets:
    """What is stated of a job: mostly the numbers of the sets of one of its stations; now and then
    others of single stations, that stations with a fault stay outside, that a set-up line that comes
    again begins nothing, and the code that begins a station too."""
    divisions, others = divisions_in(text, name), random.random() < 0.4
    same, code = random.random() < 0.3, random.choice([None, None, b"7"])
    begins: dict[str, Any] = {"same_set_up": same, "code": code, "again": random.random() < 0.3}
    if not divisions:
        return model.StatedSets(*random.choice([(None, None), (2, 3)]), others, **begins)
    division = random.choice(divisions)
    sets, targets = len(division.sets), len(model.targets_in_sets(division))
    return model.StatedSets(
        random.choice([None, sets, sets, sets, sets, sets % model.MOST_SETS + 1]),
        random.choice([None, None, targets, targets, targets % model.MOST_TARGETS + 1]),
        others,
        own_numbers(random, sets),
        own_numbers(random, targets),
        **begins,
    )


def cases_of_jobs(place: int) -> Iterator[Case]:
    """Runs over jobs without codes."""
    random = Random(f"job {SEED} {place}")
    for nth in range(3):
        text, name = job(random)
        stated = sets_stated(random, text, name)
        yield Case(f"{place}: job {nth}", "mark", text, station=name, stated=stated)


def change_of(random: Random, name: str, field: bytes) -> Case:
    """A run that changes lines: some that are there, and now and then one that isn't, or a name that
    can't be."""
    last = len(field.splitlines()) + 1
    lines = random.sample(range(1, last + 1), min(last, random.randint(1, 3)))
    if random.random() < 0.2:
        lines.append(random.choice([*lines, last + 100]))
    named = lines[random.randint(0, len(lines)) :]
    names = ["A", "P8", "12345678", "123456789", "0", "07"]
    renamed = tuple((number, random.choice(names)) for number in named)
    left_out = tuple(lines[: len(lines) - len(named)])
    return Case(name, "change", field, left_out=left_out, names=renamed)


def cases_of(place: int) -> Iterator[Case]:
    """The runs over one generated file, and over sheets of its stations."""
    random, of_residuals = Random(f"{SEED} {place}"), Random(f"residuals {SEED} {place}")
    field, limits = field_file(random)

    def held() -> dict[str, Any]:
        """A limit of residuals, or that none is stated."""
        return {"residual": of_residuals.choice([None, None, None, 0, 1, 20, 200, 2_000])}

    yield Case(f"{place}: words", "words", field)
    yield change_of(Random(f"changes {SEED} {place}"), f"{place}: changes", field)
    yield Case(f"{place}: list", "list", field, limits=limits)
    yield Case(f"{place}: rows of the list", "list --csv", field, limits=limits)
    try:
        stations = model.survey_of(field, limits)
    except model.Refusal:
        stations = []
    if not stations:
        yield Case(f"{place}: check", "check", field, b"no sheet", limits=limits)
        return
    station = random.choice(stations).name.decode()
    asked = random.choice([station, station, station, "?"])
    yield Case(f"{place}: means", "means", field, station=asked, limits=limits)
    of_station: dict[str, Any] = {"station": asked, "limits": limits}
    decimals = random.randint(1, 8)
    yield Case(
        f"{place}: directions", "directions", field, decimals=decimals, **of_station, **held()
    )
    yield Case(f"{place}: report", "report", field, **of_station, **held())
    yield Case(f"{place}: rows of the report", "report --csv", field, **of_station, **held())
    for nth in range(2):
        compared = random.choice(stations)
        within = random.choice([None, None, None, 10, 0, 1, 100, 1_000_000])
        of_table: dict[str, Any] = {"station": compared.name.decode(), "limits": limits, **held()}
        of_table["within"] = within
        degrees = random.random() < 0.3
        table = changed_table(random, compared, degrees)
        of_table["degrees"] = degrees != (random.random() < 0.1)
        yield Case(f"{place}: table {nth}", "compare", field, table, **of_table)
        yield Case(f"{place}: report with table {nth}", "report --table", field, table, **of_table)
        del of_table["within"]
        yield Case(f"{place}: differences {nth}", "differences", field, table, **of_table)
    for nth in range(3):
        residual = random.choice([None, None, 0, 1, 20, 2_000])
        sheet = sheet_text(random, stations)
        yield Case(f"{place}: sheet {nth}", "check", field, sheet, limits=limits, residual=residual)


def generated(count: int) -> Iterator[Case]:
    """The runs over so many generated files and jobs."""
    for place in range(count):
        yield from cases_of_jobs(place)
        yield from cases_of(place)


def main() -> None:
    count = int(sys.argv[1]) if len(sys.argv) > 1 else 1_000
    kinds = Counter(kind_of(case.expected()) for case in generated(count))
    for kind, met in kinds.most_common():
        print(f"{met:8}  {kind}")
    print(f"{sum(kinds.values()):8}  cases of {count} files")


if __name__ == "__main__":
    main()
