"""All stations of a file by one call: of each what its own command answers, or the first refusal."""

import unittest
from random import Random

import model
from generated import SEED, station_to_adjust
from program import EXAMPLE, ProgramTest, answer_of, side_by_side

FILES = 12
MOST_STATIONS = 7

# Each command, and how its texts make one.
COMMANDS = [
    (["directions"], model.named_directions),
    (["directions", "--decimals=3"], model.named_directions),
    (["report"], model.paged),
    (["report", "--csv"], model.titled_once),
    (["report", "--csv", "--decimal-comma"], model.titled_once),
    (["directions", "--residual=0"], model.named_directions),
]

ALONE = "'--all' is of all stations: not with a STATION, '--table', how it is read, '--within' or '--sha256'"

ONE_TABLE = "'--all' takes one table of all stations in the place of STATION: not with another TABLE, "

# Words that are a mistake beside a field file, and what is said of them.
MISTAKES = [
    (["directions", "--all", "{gsi}", "S1"], ALONE),
    (["report", "--all", "{gsi}", "S1"], ALONE),
    (["report", "--all", "--sha256", "{gsi}"], ALONE),
    (["report", "--all", "--table={gsi}", "{gsi}"], ALONE),
    (["report", "--all", "--csv", "--sha256", "{gsi}"], ALONE),
    (["means", "--all", "{gsi}", "S1"], "unexpected argument '--all' found"),
    (["compare", "--all", "{gsi}", "S1", "{gsi}"], ONE_TABLE),
    (["differences", "--all", "{gsi}", "S1", "{gsi}"], ONE_TABLE),
    (["differences", "--all", "--json", "{gsi}", "{gsi}"], ONE_TABLE),
    (["compare", "--all", "--sha256", "--within=30", "{gsi}", "{gsi}"], ONE_TABLE),
    (["compare", "--columns=1", "{gsi}", "S1"], "invalid value '1' for '--columns <TARGET,DIRECTION>': "),
    (["compare", "--all", "{gsi}"], "the following required arguments were not provided:\n  <STATION>"),
]

# Each command that reads one table of all stations, and how its texts make one.
OF_TABLES = [
    (["compare"], model.line_by_line),
    (["compare", "--within=0.002mgon"], model.line_by_line),
    (["differences"], model.named_differences),
    (["differences", "--residual=0.02mgon"], model.named_differences),
]


def named(file: bytes, name: bytes) -> bytes:
    """A file of one station, S1, with another name for it."""
    return file.replace(b"42....+000000S1", b"42....+" + name.rjust(8, b"0"))


def joined(alone, arrange):
    """What is answered of all stations, by what each alone is answered with."""
    for name, (status, _, said) in alone:
        if status:
            return status, b"", said + b"note: station %s\n" % name
    return 0, arrange([(name, text) for name, (_, text, _) in alone]), b""


class AllStationsTest(ProgramTest):
    def test_each_station_is_answered_as_it_alone_is(self):
        """Also where one is refused: then nothing is printed."""
        field, refused = self.folder / "field.gsi", 0
        for place in range(FILES):
            random = Random(f"{SEED} all {place}")
            names = [b'P%d,"' % n if n % 3 == 2 else b"P%d" % n for n in range(random.randint(1, MOST_STATIONS))]
            random.shuffle(names)
            field.write_bytes(b"".join(named(station_to_adjust(random), name) for name in names))
            for command, arrange in COMMANDS:
                with self.subTest(f"{place}: {command}"):
                    alone = list(side_by_side(lambda name: answer_of([*command, field, name]), names))
                    expected = joined(list(zip(names, alone)), arrange)
                    self.assertEqual(expected, answer_of([*command, "--all", field]))
                    refused += expected[0]
        self.assertGreater(FILES * len(COMMANDS), refused)
        self.assertGreater(refused, 0)

    def test_each_station_is_compared_with_its_part_of_one_table(self):
        """The table is that of `directions --all`, of as many decimals as may be too few."""
        field, table, part = (self.folder / name for name in ("field.gsi", "all.csv", "part.csv"))
        refused, runs = 0, 0
        for place in range(FILES):
            random = Random(f"{SEED} table {place}")
            names = [b'P%d,"' % n if n % 3 == 2 else b"P%d" % n for n in range(random.randint(1, MOST_STATIONS))]
            field.write_bytes(b"".join(named(station_to_adjust(random), name) for name in names))
            decimals = f"--decimals={random.choice([5, 6, 8])}"
            status, text, _ = answer_of(["directions", "--all", decimals, field])
            if status:
                continue
            table.write_bytes(text)
            for command, arrange in OF_TABLES:
                with self.subTest(f"{place}: {command}"):
                    alone = []
                    for name in names:
                        part.write_bytes(answer_of(["directions", decimals, field, name])[1])
                        alone.append((name, answer_of([*command, field, name, part])))
                    expected = joined(alone, arrange)
                    self.assertEqual(expected, answer_of([*command, "--all", field, table]))
                    refused, runs = refused + expected[0], runs + 1
        self.assertGreater(runs, refused)

    def test_what_is_of_one_station_is_a_mistake_beside_all(self):
        for words, message in MISTAKES:
            with self.subTest(words):
                args = [word.format(gsi=EXAMPLE) for word in words]
                status, stdout, stderr = answer_of(args)
                self.assertEqual((2, b""), (status, stdout))
                self.assertTrue(stderr.decode().startswith(f"error: {message}"), stderr)


if __name__ == "__main__":
    unittest.main()
