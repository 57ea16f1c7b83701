"""The least-squares directions of stations as tables: examples worked out by hand, and generated
stations, complete, with gaps, in a chain or in sessions, beside the model."""

import unittest
from random import Random

import model
from against_model import AgainstModel, Case
from generated import SEED, station_to_adjust, table_of_station
from program import EXAMPLE, SWEEP, ProgramTest, Run, answer_of
from test_means import largest
from worked import JOB, PARTS, STATION, TABLE, edited, field_file, refused, widened

DIRECTIONS = ["directions", "{file}", "S1"]

STATIONS = 400 if SWEEP else 30


def both_faces(name, hz):
    return name, hz, (hz + model.HALF_CIRCLE) % model.CIRCLE


def one_set(*targets):
    """A field file of one set of these targets: their names and directions in face I."""
    return field_file({1: [both_faces(*target) for target in targets]})


def three_sets(last):
    """Two sets with A and B at 0, and one in which B is further."""
    of_b = enumerate([0, 0, last], 1)
    return field_file({number: [both_faces("A", 0), both_faces("B", hz)] for number, hz in of_b})


def many_stations(count):
    """The stations S1, S2 and so on, one after the other."""
    names = [f"S{number}".rjust(8, "0").encode() for number in range(1, count + 1)]
    return b"".join(edited(STATION, (b"000000S1", name)) for name in names)


TWO_PARTS = field_file({1: [both_faces("A", 0)], 2: [both_faces("B", 0)]})

# Three sets in a row that share a target with the next: nothing is left of any reading.
CHAIN = field_file(
    {
        1: [both_faces("A", 39_000_000), both_faces("B", 4_000_000)],
        2: [both_faces("B", 7), both_faces("C", 10_000_000)],
        3: [both_faces("C", 39_999_999), both_faces("D", 2)],
    }
)

# Each is a field file, decimals or none, and the table that is printed.
TABLES = [
    ("the example", STATION, None, TABLE),
    ("GSI-16", widened(STATION), None, TABLE),
    ("1 decimal", STATION, "1", b"A,0.0\nB,50.0\n"),
    ("4 decimals", STATION, "4", b"A,0.0000\nB,50.0000\n"),
    ("5 decimals", STATION, "5", b"A,0.00000\nB,50.00003\n"),
    ("8 decimals", STATION, "8", b"A,0.00000000\nB,50.00003000\n"),
    ("before zero", one_set(("A", 5), ("B", 0)), "5", b"A,0.00000\nB,399.99995\n"),
    ("up to a full circle", one_set(("A", 5), ("B", 0)), "4", b"A,0.0000\nB,0.0000\n"),
    ("below the middle", one_set(("A", 6), ("B", 0)), "4", b"A,0.0000\nB,399.9999\n"),
    ("one target", one_set(("A", 123)), None, b"A,0.000000\n"),
    ("a name in quotes", one_set(('A,"1', 7)), "2", b'"A,""1",0.00\n'),
    ("a chain", CHAIN, "6", b"A,0.000000\nB,50.000000\nC,149.999930\nD,149.999960\n"),
    ("residuals of 2,000 half units", three_sets(3_000), "4", b"A,0.0000\nB,0.0100\n"),
]

# What is told of eight stations, and of a job without codes.
EIGHT = "the file has S1, S2, S3, S4, S5, S6, S7, S8"
NOTHING_CHECKED = (
    "note: nothing was checked: 8 readings stand in no set; "
    "station_check mark puts codes into a copy"
)

# What is told of the last set of three, where B is further in it than the limit of residuals allows.
ABOVE = "set 3, A: the greatest residual, above the limit of 10.000 mgon"

# Each is a field file, the name of a station, and the fault, with what is told after its line.
FAULTS = [
    ("no bytes", b"", "S1", "no station"),
    ("another name", STATION, "S2", "no station\nthe file has S1"),
    ("a part of a name", STATION, "S", "no station\nthe file has S1"),
    ("more stations than a line names", many_stations(10), "S", f"no station\n{EIGHT} and 2 others"),
    ("one more than a line names", many_stations(9), "S", f"no station\n{EIGHT} and 1 other"),
    ("as many as a line names", many_stations(8), "S", f"no station\n{EIGHT}"),
    ("a job without codes", JOB, "S1", f"no station\n{NOTHING_CHECKED}"),
    ("another unit", edited(STATION, (b"21.102", b"21.104")), "S2", "block 3: Hz Unit"),
    ("two parts", TWO_PARTS, "S1", f"adjust: NotConnected\n{PARTS}"),
    ("half a circle", three_sets(20_000_000), "S1", f"adjust: Residual 5\n{ABOVE}"),
    ("more than 2,000 half units in the last set", three_sets(3_001), "S1", f"adjust: Residual 5\n{ABOVE}"),
]

AGREES_WITHIN_1 = (
    rb"^agrees S1: \d+ sets, \d+ targets, within 0\.00[01] mgon, limit \d+\.\d{3} mgon, "
    rb"greatest residual \d+\.\d{3} mgon\n$"
)

# What may follow `--decimals`, and what is said of it.
MISTAKES = [
    ("0", b"error: invalid value '0' for '--decimals <K>': 0 is not in 1..=8\n"),
    ("9", b"error: invalid value '9' for '--decimals <K>': 9 is not in 1..=8\n"),
    ("4.5", b"error: invalid value '4.5' for '--decimals <K>': "),
]


class DirectionsTest(ProgramTest):
    def test_directions_are_printed_or_the_first_fault_is_named(self):
        for name, file, decimals, table in TABLES:
            options = [] if decimals is None else ["--decimals", decimals]
            self.check([Run(name, [*DIRECTIONS, *options], file=file, stdout=table)])
        for name, file, station, fault in FAULTS:
            args = ["directions", "{file}", station]
            self.check([Run(name, args, file=file, stderr=refused(fault), status=1)])

    def test_the_largest_station(self):
        _, sets, *_ = largest()
        table = b"".join(b"%d,%d.%02d\n" % (t, *divmod(t - 1, 100)) for t in range(1, 101))
        args = [*DIRECTIONS, "--decimals", "2"]
        self.check([Run("the largest", args, file=field_file(sets), stdout=table)])

    def test_a_mistake_in_the_decimals_is_explained(self):
        for value, message in MISTAKES:
            with self.subTest(value):
                status, stdout, stderr = answer_of(["directions", EXAMPLE, "S1", "--decimals", value])
                self.assertEqual((2, b""), (status, stdout))
                self.assertTrue(stderr.startswith(message), stderr)


class AdjustedTest(AgainstModel):
    def test_generated_stations_beside_the_model(self):
        for place in range(STATIONS):
            random = Random(f"{SEED} directions {place}")
            file, decimals = station_to_adjust(random), random.randint(1, 8)
            self.compare([Case(f"{place}", "directions", file, decimals=decimals)])

    def test_sessions_beside_the_model(self):
        """Dense parts that are joined by one target, or by a way: their directions, residuals and
        tables."""
        for place in range(STATIONS // 2):
            random = Random(f"{SEED} sessions {place}")
            file = station_to_adjust(random, 12, 20, "sessions")
            table = table_of_station(random, model.survey_of(file, model.Limits())[0])
            within = random.choice([None, 0, 10, 51])
            answers = self.compare([
                Case(f"{place}: directions", "directions", file, decimals=random.randint(1, 8)),
                Case(f"{place}: rows of the report", "report --csv", file),
                Case(f"{place}: compare", "compare", file, table, within=within),
                Case(f"{place}: differences", "differences", file, table),
            ])
            self.assertEqual([(0, b"")] * 2, [(status, said) for status, _, said in answers[:2]])

    def test_compare_accepts_what_is_printed_with_6_decimals_or_more(self):
        """Of stations up to the largest, some of which fall into parts and are not told of."""
        field, agreed = self.folder / "field.gsi", 0
        for place in range(STATIONS):
            field.write_bytes(station_to_adjust(Random(f"{SEED} law {place}"), 40, 100))
            decimals = 6 + place % 3
            status, table, said = answer_of(["directions", f"--decimals={decimals}", field, "S1"])
            with self.subTest(place):
                if status == 0:
                    compare = ["compare", "--within=1", field, "S1", "/dev/stdin"]
                    self.assertRegex(answer_of(compare, table)[1], AGREES_WITHIN_1)
                    agreed += 1
                else:
                    self.assertEqual(refused("adjust: NotConnected", PARTS), said)
        self.assertGreater(agreed, STATIONS // 2)


if __name__ == "__main__":
    unittest.main()
