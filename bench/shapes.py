"""Field files of the shapes that users have, with and without codes."""

from dataclasses import dataclass
from random import Random

CIRCLE = 40_000_000
HALF = CIRCLE // 2

# A sight: the name of its target, its direction and its zenith angle.
Sight = tuple[str, int, int]


@dataclass(frozen=True)
class Shape:
    """A field file: its stations, the sets of each, the targets of each set, and how its lines are
    written. `gaps` is the share of readings that are left out after the first set; `parts` are
    sessions of equal numbers of sets and targets, each of which has one target of the one before.
    A job without codes has so many leading sights before the sets of each station, and so many
    detail points after them, all of them of targets of their own."""

    title: str
    stations: int
    sets: int
    targets: int
    gaps: float = 0
    parts: int = 1
    width: int = 8
    end: str = "\r\n"
    distances: bool = False
    shuffled: bool = False
    leading: int = 0
    details: int = 0

    def name(self) -> str:
        """What a row of a table calls it."""
        more = [
            f"{self.targets} target{'s' if self.targets > 1 else ''}",
            *(["GSI-16"] if self.width == 16 else []),
            *(["LF"] if self.end == "\n" else []),
            *(["words 31, 51, 87"] if self.distances else []),
            *(["shuffled"] if self.shuffled else []),
            *([f"{self.leading:,} leading sights"] if self.leading else []),
            *([f"{self.details:,} detail points"] if self.details else []),
        ]
        return f"{self.title}, {', '.join(more)}"


def word(shape: Shape, index: str, info: str, value: int | str) -> str:
    """A word with a blank after it."""
    return f"{index}{info}{value:0>{shape.width}} "


def line(shape: Shape, *words: str) -> str:
    """The line of these words, in the width and with the end of the file's lines."""
    text = "".join(words).rstrip()
    return f"{'*' if shape.width == 16 else ''}{text}{shape.end}"


def reading(shape: Shape, number: int, target: str, hz: int, v: int) -> str:
    """The line of a reading."""
    angles = word(shape, "21", ".102+", hz % CIRCLE), word(shape, "22", ".102+", v)
    more: list[tuple[str, str, int | str]]
    more = [("31", "..00+", 45678 + number), ("51", "....+", "0010+000"), ("87", "..10+", 1500)]
    extra = [word(shape, *one) for one in more] if shape.distances else []
    return line(shape, word(shape, "11", f"{number % 10000:04}+", target), *angles, *extra)


def code(shape: Shape, number: int, value: int, info: int | str | None = None) -> str:
    """The line of a code."""
    words = [word(shape, "41", f"{number % 10000:04}+", value)]
    return line(shape, *words, *([] if info is None else [word(shape, "42", "....+", info)]))


def sights_of(shape: Shape, draw: Random, number: int, sights: list[Sight]) -> list[Sight]:
    """What is read in the set of this number, from 1: all, or those of its session, less gaps."""
    session = (number - 1) * shape.parts // shape.sets
    size = len(sights) // shape.parts
    first = max(0, session * size - 1)
    seen = sights[first:] if session == shape.parts - 1 else sights[first : (session + 1) * size]
    if shape.gaps and number > 1:
        seen = [one for one in seen if draw.random() >= shape.gaps]
    return draw.sample(seen, len(seen)) if shape.shuffled else seen


def field_file(shape: Shape) -> str:
    """The text of stations with small errors in every reading."""
    draw = Random(1)
    lines = list[str]()
    for station in range(1, shape.stations + 1):
        lines.append(code(shape, len(lines) + 1, 10, f"S{station}"))
        names = [f"P{target}" for target in range(1, shape.targets + 1)]
        sights = [
            (name, draw.randrange(CIRCLE), draw.randrange(9_000_000, 11_000_000)) for name in names
        ]
        for number in range(1, shape.sets + 1):
            lines.append(code(shape, len(lines) + 1, 20, number))
            begin = draw.randrange(CIRCLE)
            seen = sights_of(shape, draw, number, sights)
            for name, hz, v in seen:
                error = draw.randrange(-50, 51)
                lines.append(reading(shape, len(lines) + 1, name, hz - begin + error, v))
            for name, hz, v in reversed(seen):
                error = draw.randrange(-50, 51)
                angles = hz - begin + HALF + error, CIRCLE - v + error
                lines.append(reading(shape, len(lines) + 1, name, *angles))
    lines.append(code(shape, len(lines) + 1, 30))
    return "".join(lines)


def seen_in_job(shape: Shape, draw: Random, number: int, names: list[str]) -> list[str]:
    """The targets of a set of a job without codes: the first and the last are those of set 1."""
    if len(names) == 1:
        return names
    first, *between, last = names
    if number > 1:
        between = [name for name in between if draw.random() >= shape.gaps]
        between = draw.sample(between, len(between)) if shape.shuffled else between
    return [first, *between, last]


def job_file(shape: Shape) -> str:
    """The text of stations as an instrument records them: set-up lines, and no codes."""
    draw = Random(1)
    lines, zeniths = list[str](), dict[str, int]()

    def read(name: str, face: int) -> None:
        hz, zenith = draw.randrange(CIRCLE), draw.randrange(9_000_000, 11_000_000)
        v = zeniths.setdefault(name, zenith) + draw.randrange(-50, 51)
        lines.append(reading(shape, len(lines) + 1, name, hz, v if face == 1 else CIRCLE - v))

    for station in range(1, shape.stations + 1):
        zeniths.clear()
        point = word(shape, "11", f"{len(lines) % 10000:04}+", f"S{station}")
        lines.append(line(shape, point, word(shape, "88", "..10+", 1543)))
        for number in range(shape.leading):
            read(f"P{number + 1}" if number < shape.targets else f"L{number}", 1)
        names = [f"P{target}" for target in range(1, shape.targets + 1)]
        for number in range(1, shape.sets + 1):
            seen = seen_in_job(shape, draw, number, names)
            for name in seen:
                read(name, 1)
            for name in reversed(seen):
                read(name, 2)
        for number in range(shape.details):
            read(f"D{number}", 1)
    return "".join(lines)
