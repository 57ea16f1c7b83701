"""Generated field files, sheets and tables in which each fault is met, and the largest ones."""

import unittest
from collections import Counter

import model
from against_model import FIELD, AgainstModel, Case
from generated import generated
from kinds import OF_COUNTS, REFUSALS, WRITTEN, kind_of
from program import SWEEP

FILES = 20_000 if SWEEP else 700


def station(name, sets, targets, face_two=True):
    """A station whose readings are all right, as lines."""
    yield f"41....+00000010 42....+{name:0>8}"
    for number in range(1, sets + 1):
        yield f"41....+00000020 42....+{number:08}"
        for target in range(1, targets + 1):
            yield f"11....+{target:08} 21.102+{1_000 * target:08} 22.102+10000000"
            if face_two:
                yield f"11....+{target:08} 21.102+{20_000_000 + 1_000 * target:08} 22.102+30000000"


def lines(*parts):
    """The bytes of a file of all these lines."""
    return "\n".join(line for part in parts for line in part).encode()


def stations_with(sets):
    """A file of stations with so many sets of one target."""
    return lines(*(station(f"S{n}", count, 1) for n, count in enumerate(sets)))


def job(name, sets, targets):
    """The same readings as an instrument records them: after a set-up line, and without codes."""
    yield f"11....+{name:0>8} 88..10+00001543"
    yield from (line for line in station(name, sets, targets) if not line.startswith("41"))


def jobs(count):
    """A file of so many such stations."""
    return lines(*(job(f"S{n}", 2, 2) for n in range(count)))


def rows(*counts):
    """A sheet with so many rows of each kind."""
    sheet, targets, sets, observations = counts
    written = ["sheet,1,S1,4,"] * sheet + ["target,,A,0,"] * targets + ["set,1,,0,"] * sets
    return "\n".join(written + ["obs,1,A,0,0"] * observations).encode()


THOUSAND = stations_with(1 for _ in range(1_000))
SHEET_OF_LAST = model.means(lines(station("S999", 1, 1)), b"S999")[1]


# What is stated of their sets, which are read by targets.
TWO, FORTY = model.StatedSets(2), model.StatedSets(40)

# The faults of size, each with the largest input that has none.
LARGE = [
    Case("100 targets", "list", lines(station("S1", 1, 100))),
    Case("101 targets", "list", lines(station("S1", 1, 101))),
    Case("101 targets, one face at a time", "list", lines(station("S1", 1, 101, face_two=False))),
    Case("40 sets", "list", lines(station("S1", 40, 1))),
    Case("41 sets", "list", lines(station("S1", 41, 1))),
    Case("40 sets, means", "means", lines(station("S1", 40, 2))),
    Case("1,000 stations", "list", THOUSAND),
    Case("1,000 stations, means of the last", "means", THOUSAND, station="S999"),
    Case("1,000 stations, a sheet of the last", "check", THOUSAND, SHEET_OF_LAST),
    Case("1,001 stations", "list", stations_with(1 for _ in range(1_001))),
    Case("40 sets, no codes", "mark", lines(job("S1", 40, 2)), station=None, stated=FORTY),
    Case("41 sets, no codes", "mark", lines(job("S1", 41, 2)), station=None, stated=FORTY),
    Case("100 targets, no codes", "mark", lines(job("S1", 2, 100)), station=None, stated=TWO),
    Case("101 targets, no codes", "mark", lines(job("S1", 2, 101)), station=None, stated=TWO),
    Case("1,000 stations, no codes", "mark", jobs(1_000), station=None, stated=TWO),
    Case("1,001 stations, no codes", "mark", jobs(1_001), station=None, stated=TWO),
    Case("a sheet of 100 targets and 40 sets", "check", FIELD, rows(1, 100, 40, 4_000)),
    Case("a sheet of 101 targets", "check", FIELD, rows(1, 101, 1, 1)),
    Case("a sheet of 41 sets", "check", FIELD, rows(1, 1, 41, 1)),
    Case("a sheet of 4,001 observations", "check", FIELD, rows(1, 1, 1, 4_001)),
    Case("a sheet of as many bytes as may be", "check", FIELD, b" " * model.LONGEST_SHEET),
    Case("a sheet of a byte more", "check", FIELD, b" " * (model.LONGEST_SHEET + 1)),
    Case("a sheet of empty lines", "check", FIELD, b"\n" * model.LONGEST_SHEET),
]

# These take the model some time.
LARGER = [
    Case("1,000 stations and one", "list", stations_with(min(n, 1) for n in range(1_001))),
    Case("40 sets of 100 targets", "means", lines(station("S1", 40, 100))),
]


class GeneratedTest(AgainstModel):
    def test_generated_files_and_sheets(self):
        met = Counter(map(kind_of, self.compare(generated(FILES))))
        self.assertEqual({*REFUSALS, *WRITTEN}, met.keys())

    def test_the_largest_files_and_sheets(self):
        met = Counter(map(kind_of, self.compare(LARGE + LARGER if SWEEP else LARGE)))
        self.assertLessEqual({*OF_COUNTS, "sheet: TooLong"}, met.keys())


if __name__ == "__main__":
    unittest.main()
