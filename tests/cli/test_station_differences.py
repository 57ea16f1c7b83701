"""The differences of tables from their stations, target by target: examples worked out by hand, in
many rotations; generated tables beside the model. Of stations up to the largest the largest
difference is beside W of `compare`, and each is that of the columns before it but for one rotation."""

import csv
import io
import json
import unittest
from random import Random

import model
from against_model import AgainstModel, Case
from generated import SEED, changed_table, station_to_adjust
from program import EXAMPLE, EXAMPLE_TABLE, SWEEP, ProgramTest, Run, answer_of
from test_directions import CHAIN, one_set
from test_means import largest
from test_station_residuals import units
from worked import DIFFERENCES, STATION, TABLE, field_file, refused, widened

TITLES = b"target,stated,least squares,difference,from the median\n"

STATIONS = 300 if SWEEP else 30

# Four targets at 0, 100, 200 and 300 gon.
QUARTERS = one_set(*[(name, 10_000_000 * place) for place, name in enumerate("ABCD")])

# What is printed of a field file and a table, worked out by hand.
PRINTED = [
    ("the example", STATION, TABLE, DIFFERENCES),
    ("GSI-16", widened(STATION), TABLE, DIFFERENCES),
    (
        "rows in another order, with titles, semicolons and decimal commas",
        STATION,
        b"Target;Direction\r\nB;150,0001\r\nA;100,0001\r\n",
        TITLES + b"A,100.000100,0.000000,0.015,0.030\nB,150.000100,50.000030,-0.015,0.000\n",
    ),
    (
        "one target, whatever is stated",
        one_set(("A", 123)),
        b"A,-0.5\n",
        TITLES + b"A,399.500000,0.000000,0.000,0.000\n",
    ),
    (
        "400 gon are 0",
        one_set(("A", 0), ("B", 10_000_000)),
        b"A,400.0000\nB,-300\n",
        TITLES + b"A,0.000000,0.000000,0.000,0.000\nB,100.000000,100.000000,0.000,0.000\n",
    ),
    (
        "a name in quotes",
        one_set(('A,"1', 7)),
        b'"A,""1",7\n',
        TITLES + b'"A,""1",7.000000,0.000000,0.000,0.000\n',
    ),
    (
        "one row with seven decimals, and all have nine",
        STATION,
        b"A,0.0000001\nB,50.00003\n",
        TITLES + b"A,0.000000100,0.000000,0.000,0.000\nB,50.000030000,50.000030,0.000,0.000\n",
    ),
    (
        "the middle of two goes up, on both sides of 0",
        STATION,
        b"A,0\nB,50.000033\n",
        TITLES + b"A,0.000000,0.000000,-0.001,0.000\nB,50.000033,50.000030,0.002,0.003\n",
    ),
    (
        "one target that is off by 1 mgon",
        QUARTERS,
        b"A,0\nB,100\nC,200.001\nD,300\n",
        TITLES
        + b"A,0.000000,0.000000,-0.500,0.000\nB,100.000000,100.000000,-0.500,0.000\n"
        + b"C,200.001000,200.000000,0.500,1.000\nD,300.000000,300.000000,-0.500,0.000\n",
    ),
    (
        "differences on both sides of 0 on the circle",
        QUARTERS,
        b"A,399.999999\nB,100.000001\nC,199.999998\nD,300\n",
        TITLES
        + b"A,399.999999,0.000000,0.000,0.000\nB,100.000001,100.000000,0.002,0.002\n"
        + b"C,199.999998,200.000000,-0.001,-0.001\nD,300.000000,300.000000,0.001,0.001\n",
    ),
    (
        "as narrow arcs from each target: the first",
        QUARTERS,
        b"A,0\nB,200\nC,0\nD,200\n",
        TITLES
        + b"A,0.000000,0.000000,-150000.000,-100000.000\nB,200.000000,100.000000,-50000.000,0.000\n"
        + b"C,0.000000,200.000000,50000.000,100000.000\nD,200.000000,300.000000,150000.000,200000.000\n",
    ),
    (
        "as narrow arcs from the second target and the fourth: the second",
        QUARTERS,
        b"A,0\nB,50\nC,0\nD,50\n",
        TITLES
        + b"A,0.000000,0.000000,-75000.000,0.000\nB,50.000000,100.000000,-125000.000,-50000.000\n"
        + b"C,0.000000,200.000000,125000.000,200000.000\nD,50.000000,300.000000,75000.000,150000.000\n",
    ),
    (
        "a chain",
        CHAIN,
        b"A,0\nB,50\nC,150\nD,150.00003\n",
        TITLES
        + b"A,0.000000,0.000000,-0.035,0.000\nB,50.000000,50.000000,-0.035,0.000\n"
        + b"C,150.000000,149.999930,0.035,0.070\nD,150.000030,149.999960,0.035,0.070\n",
    ),
]

# A field file, a table, and the fault that stands first.
FAULTS = [
    ("the file before its table", STATION.replace(b"410012", b"4100 2"), b"", "block 12: Word 1"),
    ("no station", STATION.replace(b"S1", b"S2"), b"", "no station\nthe file has S2"),
    ("the table", STATION, b"A,0\nC,1\n", "table row 2: Unknown"),
    ("a target without a row", STATION, b"B,1\n", "table: Missing 1\nthe table lacks A"),
]


class DifferencesTest(ProgramTest):
    def test_differences_are_printed_or_the_first_fault_is_named(self):
        table = self.folder / "table.csv"
        for name, file, text, printed in PRINTED:
            table.write_bytes(text)
            args = ["differences", "{file}", "S1", str(table)]
            self.check([Run(name, args, file=file, stdout=printed)])
        for name, file, text, fault in FAULTS:
            table.write_bytes(text)
            args = ["differences", "{file}", "S1", str(table)]
            self.check([Run(name, args, file=file, stderr=refused(fault), status=1)])

    def test_no_rotation_changes_a_difference(self):
        """Tables that are turned by many angles, across 0 too, have the same differences."""
        table = self.folder / "table.csv"
        for turn in [0, 1, 349_999_970, 350_000_000, 399_999_999, 123_456_789]:
            angles = [(turn + angle) % 400_000_000 for angle in (0, 50_000_060)]
            rows = zip("AB", [divmod(angle, 1_000_000) for angle in angles])
            table.write_bytes(b"".join(b"%s,%d.%06d\n" % (name.encode(), *gon) for name, gon in rows))
            status, printed, said = answer_of(["differences", EXAMPLE, "S1", table])
            differences = [row["difference"] for row in csv.DictReader(io.StringIO(printed.decode()))]
            self.assertEqual((0, b"", ["-0.015", "0.015"]), (status, said, differences), turn)

    def test_the_largest_station(self):
        _, sets, *_ = largest()
        field, table = self.folder / "field.gsi", self.folder / "table.csv"
        field.write_bytes(field_file(sets))
        table.write_bytes(answer_of(["directions", field, "S1"])[1])
        status, printed, said = answer_of(["differences", field, "S1", table])
        rows = list(csv.DictReader(io.StringIO(printed.decode())))
        self.assertEqual((0, b"", 100), (status, said, len(rows)))
        for row in rows:
            self.assertEqual((row["stated"], "0.000"), (row["least squares"], row["difference"]))


# The keys of an object that `--json` prints, in their order, and the titles of the same in rows.
TITLE_OF = {
    "target": "target",
    "stated": "stated",
    "least_squares": "least squares",
    "difference": "difference",
    "from_median": "from the median",
}

COMMA_IN_JSON = b"error: '--json' writes numbers with points: not with '--decimal-comma'\n"


class JsonTest(AgainstModel):
    def assert_objects_are_rows(self, words):
        """Each line is an object that Python reads, with the name and the numbers of its row, digit
        by digit."""
        rows = answer_of(["differences", *words])
        lines = answer_of(["differences", "--json", *words])
        self.assertEqual((0, 0, rows[2]), (rows[0], lines[0], lines[2]))
        read = [json.loads(line, parse_float=str) for line in lines[1].decode().splitlines()]
        found = list(csv.DictReader(io.StringIO(rows[1].decode())))
        self.assertEqual(found, [{TITLE_OF[key]: of[key] for key in of} for of in read])
        self.assertEqual([list(TITLE_OF)] * len(found), [list(of) for of in read])
        self.assertEqual(len(found), lines[1].count(b"\n"))
        return [of["target"] for of in read]

    def test_the_objects_are_the_rows(self):
        table = self.folder / "table.csv"
        for name, file, text, _ in PRINTED:
            table.write_bytes(text)
            with self.subTest(name):
                self.assert_objects_are_rows([self.file_of(file), "S1", table])

    def test_a_quotation_mark_and_a_backslash_are_escaped(self):
        """Of all bytes that a name can have these two alone."""
        names = ['"', "\\", '\\"', "A\\nB", '"A" "B"', "a/b", "\\u0041"]
        printable = "".join(map(chr, range(ord(" "), ord("~") + 1)))
        names += [f"~{printable[place:place + 6]}~" for place in range(0, len(printable), 6)]
        field = self.file_of(one_set(*[(name, 7 + place) for place, name in enumerate(names)]))
        table = self.folder / "table.csv"
        table.write_bytes(answer_of(["directions", field, "S1"])[1])
        self.assertEqual(names, self.assert_objects_are_rows([field, "S1", table]))

    def test_a_decimal_comma_beside_it_is_a_mistake(self):
        for more in [[], ["--degrees"], ["--columns=1,2"]]:
            words = ["differences", "--json", "--decimal-comma", *more, EXAMPLE, "S1", EXAMPLE_TABLE]
            status, stdout, stderr = answer_of(words)
            with self.subTest(more):
                self.assertEqual((2, b""), (status, stdout))
                self.assertTrue(stderr.startswith(COMMA_IN_JSON), stderr)

    def file_of(self, data):
        path = self.folder / "field.gsi"
        path.write_bytes(data)
        return path


class GeneratedTest(AgainstModel):
    def test_generated_tables_beside_the_model(self):
        for place in range(STATIONS):
            random = Random(f"{SEED} differences {place}")
            file = station_to_adjust(random)
            [station] = model.survey_of(file, model.Limits())
            table = changed_table(random, station)
            self.compare([Case(f"{place}", "differences", file, table)])
            self.compare([Case(f"{place} as JSON", "differences", file, table, as_json=True)])

    def test_the_largest_difference_is_how_far_a_table_is_apart(self):
        """Of stations up to the largest: within `compare` in size, and one reaches it but for less than
        a unit; what is stated less what `directions` prints is the difference but for one rotation."""
        field, table, printed = self.folder / "field.gsi", self.folder / "table.csv", 0
        for place in range(STATIONS):
            random = Random(f"{SEED} apart {place}")
            field.write_bytes(station_to_adjust(random, 40, 100))
            status, text, _ = answer_of(["directions", "--decimals=8", field, "S1"])
            if status != 0:
                continue
            printed += 1
            least = [row.rpartition(",") for row in text.decode().splitlines()]
            off = [random.randint(-300, 300) for _ in least]
            stated = [(units(gon, 8) // 100 + by) % 400_000_000 for (_, _, gon), by in zip(least, off)]
            rows = [f"{name},{gon // 10**6}.{gon % 10**6:06}\n" for (name, _, _), gon in zip(least, stated)]
            random.shuffle(rows)
            table.write_text("".join(rows))
            _, agrees, _ = answer_of(["compare", "--within=1000000", field, "S1", table])
            apart = units(agrees.decode().rpartition(" within ")[2].partition(" mgon")[0], 3)
            _, text, _ = answer_of(["differences", field, "S1", table])
            found = list(csv.DictReader(io.StringIO(text.decode())))
            sizes = [units(row["difference"], 3) for row in found]
            with self.subTest(place):
                self.assertEqual(len(least), len(found))
                self.assertLessEqual(max(map(abs, sizes)), apart)
                self.assertGreaterEqual(max(map(abs, sizes)), apart - 1)
                rests = {
                    (units(row["stated"], 6) - units(row["least squares"], 6) - size) % 400_000_000
                    for row, size in zip(found, sizes)
                }
                spread = max(rests) - min(rests)
                self.assertLessEqual(min(spread, 400_000_000 - spread), 2)
        self.assertGreater(printed, STATIONS // 2)


if __name__ == "__main__":
    unittest.main()
