"""The residuals of stations, observation by observation, as `report --csv` prints them: examples worked
out by hand, and generated stations beside the model. Each row adds up, and with the rows of its set
and of its target to 0 but for rounding."""

import csv
import io
import unittest
from collections import defaultdict
from random import Random

from against_model import AgainstModel, Case
from generated import SEED, station_to_adjust
from program import SWEEP, ProgramTest, Run, answer_of
from rows import answer_of_residuals
from test_directions import CHAIN, FAULTS, both_faces, one_set, three_sets
from test_means import largest
from worked import RESIDUALS, STATION, field_file, refused, widened

TITLES = b"set,target,direction,adjusted,residual\n"

STATIONS = 300 if SWEEP else 30

# A full circle, in units of 0.000001 gon.
CIRCLE = 400_000_000

# What is printed of the residuals of a field file, worked out by hand.
PRINTED = [
    ("the example", STATION, RESIDUALS),
    ("GSI-16", widened(STATION), RESIDUALS),
    ("one target", one_set(("A", 123)), TITLES + b"1,A,0.001230,0.001230,0.000\n"),
    ("a name in quotes", one_set(('A,"1', 7)), TITLES + b'1,"A,""1",0.000070,0.000070,0.000\n'),
    (
        "a chain, of which nothing is left",
        CHAIN,
        TITLES
        + b"1,A,390.000000,390.000000,0.000\n1,B,40.000000,40.000000,0.000\n"
        + b"2,B,0.000070,0.000070,0.000\n2,C,100.000000,100.000000,0.000\n"
        + b"3,C,399.999990,399.999990,0.000\n3,D,0.000020,0.000020,0.000\n",
    ),
    (
        "the number of a set is not its place",
        field_file({9: [both_faces("A", 1)], 4: [both_faces("A", 2)]}),
        TITLES + b"9,A,0.000010,0.000010,0.000\n4,A,0.000020,0.000020,0.000\n",
    ),
    (
        "residuals of 10 mgon",
        three_sets(3_000),
        TITLES
        + b"1,A,0.000000,399.995000,-5.000\n1,B,0.000000,0.005000,5.000\n"
        + b"2,A,0.000000,399.995000,-5.000\n2,B,0.000000,0.005000,5.000\n"
        + b"3,A,0.000000,0.010000,10.000\n3,B,0.030000,0.020000,-10.000\n",
    ),
]


def units(text, decimals):
    """A number with so many decimals, as a whole number of the last."""
    whole, _, fraction = text.partition(".")
    assert len(fraction) == decimals, text
    return int(whole + fraction)


class ResidualsTest(ProgramTest):
    def test_residuals_are_printed_or_the_first_fault_is_named(self):
        field = self.folder / "field.gsi"
        for name, file, printed in PRINTED:
            with self.subTest(name):
                field.write_bytes(file)
                self.assertEqual((0, printed, b""), answer_of_residuals(field, "S1"))
        for name, file, station, fault in FAULTS:
            args = ["report", "--csv", "{file}", station]
            self.check([Run(name, args, file=file, stderr=refused(fault), status=1)])

    def test_the_largest_station(self):
        _, sets, *_ = largest()
        field = self.folder / "field.gsi"
        field.write_bytes(field_file(sets))
        status, printed, said = answer_of_residuals(field, "S1")
        rows = printed.decode().splitlines()
        self.assertEqual((0, b"", 4_001), (status, said, len(rows)))
        for row in rows[1:]:
            _, _, direction, adjusted, residual = row.split(",")
            self.assertEqual((direction, "0.000"), (adjusted, residual))


class GeneratedTest(AgainstModel):
    def test_generated_stations_beside_the_model(self):
        for place in range(STATIONS):
            file = station_to_adjust(Random(f"{SEED} residuals {place}"))
            self.compare([Case(f"{place}", "report --csv", file)])

    def test_rows_add_up(self):
        """Of stations up to the largest: each row to the last digit; and the residuals of a set, and
        of a target, to 0 but for half a unit each."""
        field, printed = self.folder / "field.gsi", 0
        for place in range(STATIONS):
            field.write_bytes(station_to_adjust(Random(f"{SEED} rows {place}"), 40, 100))
            status, text, _ = answer_of(["report", "--csv", field, "S1"])
            printed += status == 0
            sums = defaultdict(list)
            for row in csv.DictReader(io.StringIO(text.decode())):
                residual = units(row["residual"], 3)
                direction, adjusted = units(row["direction"], 6), units(row["adjusted"], 6)
                with self.subTest(place, row=row):
                    self.assertEqual(0, (direction + residual - adjusted) % CIRCLE)
                    self.assertLess(adjusted, CIRCLE)
                sums["set", row["set"]].append(residual)
                sums["target", row["target"]].append(residual)
            for of, residuals in sums.items():
                with self.subTest(place, of=of):
                    self.assertLessEqual(2 * abs(sum(residuals)), len(residuals))
        self.assertGreater(printed, STATIONS // 2)


if __name__ == "__main__":
    unittest.main()
