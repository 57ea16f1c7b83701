"""examples/adjust.py over generated stations: the program accepts its sheets, and refuses them for the
right fault with one number changed; no file that is there is written over."""

import re
import subprocess
import sys
import unittest
from collections import Counter
from concurrent.futures import ThreadPoolExecutor
from math import gcd
from os import cpu_count
from random import Random

import model
from model import CIRCLE, HALF_CIRCLE, TURN
from program import EXAMPLE, ROOT, ProgramTest, answer_of
from worked import STATION, field_file, refused

sys.path.insert(0, str(ROOT / "examples"))
import adjust  # noqa: E402

ADJUST = ROOT / "examples" / "adjust.py"

SEED = 20_000_003
STATIONS = 300
LIMITS = ["--two-c=1000", "--two-i=0", "--residual=2000"]

# How far a reading lies at most from what it should be, in units, each two half units of p.
SCATTERS = [0, 1, 30, 250]

NAMES = ["A", " B", "C ", "D", "TOWER", "1,2", 'a"b', "x y", "-7", "0", "12345678", "M: p 1"]


def readings_of(random, sets, targets, scatter):
    """The readings of a station's sets: each set turned at random, so that some cross zero."""
    station = {}

    def noise():
        return random.randint(-scatter, scatter)

    for number, names in sets.items():
        turned = random.choice([0, CIRCLE - 1, random.randrange(CIRCLE)])
        directions = [(name, targets[name] + turned) for name in names]
        station[number] = [
            (name, (at + noise()) % CIRCLE, (at + HALF_CIRCLE + noise()) % CIRCLE)
            for name, at in directions
        ]
    return station


def generated_station(random):
    """The readings of a station, of which a target may be missing here and there."""
    names = random.sample(NAMES, random.randint(1, 7))
    some = [0, 1, HALF_CIRCLE, random.randrange(CIRCLE), random.randrange(CIRCLE)]
    targets = {name: random.choice(some) for name in names}
    missing = random.choice([0, 0.1, 0.4, 0.7])
    sets = {}
    for number in random.sample(range(1, 100), random.randint(1, 6)):
        seen = [name for name in names if random.random() >= missing]
        sets[number] = seen or names[:1]
    return readings_of(random, sets, targets, random.choice(SCATTERS))


def first_sum(targets, observed, factor):
    """The fault that stands where the residual of each observation grows by a factor of its own."""
    sums = Counter()
    for row in observed:
        sums[row[2]] += factor(row)
    return next((f"TargetSum {n}" for n, name in enumerate(targets, 1) if sums[name]), None)


def changes_of(rows):
    """The place of each number of a sheet, and the fault of the sheet with it changed by one."""
    targets = [row[2] for row in rows if row[0] == "target"]
    observed = [row for row in rows if row[0] == "obs"]
    if fault := first_sum(targets, observed, lambda row: int(row[3]) + TURN * int(row[4])):
        yield 0, 3, fault
    places = Counter()
    for at, (kind, number, name, *_) in enumerate(rows[1:], 1):
        places[kind] += 1
        nth = places[kind]
        if kind == "target":
            yield at, 3, "Datum" if nth == 1 else f"TargetSum {nth}"
        elif kind == "set":
            yield at, 1, f"SetRow {nth}"
            yield at, 3, first_sum(targets, observed, lambda row: row[1] == number)
        else:
            yield at, 1, f"ObsRow {nth}"
            yield at, 3, f"ObsRow {nth}"
            yield at, 4, f"TargetSum {targets.index(name) + 1}"


def text_of(rows):
    return b"".join(b",".join(model.field_text(field.encode()) for field in row) + b"\n" for row in rows)


class AdjustTest(ProgramTest):
    def check_sheet(self, gsi, text):
        sheet = gsi.with_suffix(".csv")
        sheet.write_bytes(text)
        return answer_of(["check", *LIMITS, gsi, sheet])

    def adjusted(self, place):
        """Lists, adjusts and checks a station; tells what came of it."""
        random = Random(f"{SEED} {place}")
        gsi = self.folder / f"{place}.gsi"
        gsi.write_bytes(field_file(generated_station(random)))
        status, listed, _ = answer_of(["list", *LIMITS[:2], gsi])
        self.assertEqual(0, status, place)
        station = adjust.chosen(adjust.read_list(listed.decode()), None)
        try:
            sheet = adjust.sheet_of(station)
        except adjust.Refused as why:
            self.assertIn("is not connected", str(why), place)
            self.assertTrue(self.is_apart(gsi), place)
            return "not connected"
        status, said, fault = self.check_sheet(gsi, sheet.encode())
        self.assertEqual((0, b""), (status, fault), (place, sheet))
        self.assertTrue(said.startswith(b"accepted S1: "), place)
        rows = [[field.decode() for field in row] for row in model.records_of(sheet.encode())]
        self.check_changes(random, gsi, rows)
        missing = len(station.observations) < len(station.sets()) * len(station.targets())
        turned = any(row[0] == "obs" and row[4] != "0" for row in rows)
        return ("incomplete" if missing else "complete") + (", turned" if turned else "")

    def is_apart(self, gsi):
        """Whether the model says so too."""
        station = model.survey_of(gsi.read_bytes(), model.Limits(1_000, 0))[0]
        return not model.is_connected(station)

    def check_changes(self, random, gsi, rows):
        """Some of the sheets that have one number changed are refused, each for its fault."""
        changes = list(changes_of(rows))
        for at, column, fault in random.sample(changes, min(3, len(changes))):
            changed = [list(row) for row in rows]
            old = int(changed[at][column])
            # All numbers stay within their ranges, so that the sheet is read.
            most_p = column == 3 and old == TURN - 1
            by = -1 if most_p else 1 if old in (0, 1) else random.choice([1, -1])
            changed[at][column] = str(old + by)
            answer = self.check_sheet(gsi, text_of(changed))
            self.assertEqual((1, b"", refused(f"kernel: {fault}")), answer, (gsi, changed))

    def test_each_sheet_is_accepted_and_refused_with_another_number(self):
        with ThreadPoolExecutor(cpu_count()) as pool:
            met = set(pool.map(self.adjusted, range(STATIONS)))
        kinds = {"complete", "complete, turned", "incomplete", "incomplete, turned"}
        self.assertEqual({*kinds, "not connected"}, met)

    def run_adjust(self, *args, stdin=b""):
        command = [sys.executable, ADJUST, *args]
        done = subprocess.run(command, input=stdin, capture_output=True, timeout=60)
        return done.returncode, done.stdout, done.stderr.decode()

    def test_a_list_comes_from_a_path_or_from_standard_input(self):
        listed = answer_of(["list", EXAMPLE])[1]
        path = self.folder / "list"
        path.write_bytes(listed)
        status, sheet, said = self.run_adjust(path)
        self.assertEqual((0, ""), (status, said))
        self.assertEqual((0, sheet, ""), self.run_adjust(stdin=listed))
        checked = self.folder / "sheet.csv"
        for version in [b"1", b"2"]:
            args = ["--version", version.decode(), path]
            status, sheet, _ = self.run_adjust(*args)
            self.assertTrue(sheet.startswith(b"sheet," + version + b",S1,1,\n"), sheet)
            checked.write_bytes(sheet)
            self.assertEqual(0, answer_of(["check", EXAMPLE, checked])[0])

    def test_a_station_is_chosen_by_its_name(self):
        one = answer_of(["list", EXAMPLE])[1]
        two = one + one.replace(b"S1", b"S2")
        self.assertIn(b",S2,", self.run_adjust("--station", "S2", stdin=two)[1])
        for args, said in [
            ([], "name one station of the list with --station, or take --all; it has: S1, S2"),
            (["--station=S3"], "the list has no station S3; it has: S1, S2"),
        ]:
            self.assertEqual((1, b"", f"adjust.py: {said}\n"), self.run_adjust(*args, stdin=two))

    def test_all_stations_of_a_list_are_written_at_once(self):
        fields = [STATION.replace(b"00S1", name) for name in (b"00S1", b"0S 2", b"00S3")]
        gsi, start = self.folder / "three.gsi", self.folder / "three"
        gsi.write_bytes(b"".join(fields))
        listed = answer_of(["list", gsi])[1]
        self.assertEqual((0, b"", ""), self.run_adjust("--all", start, stdin=listed))
        for name in ["S1", "S 2", "S3"]:
            status, said, _ = answer_of(["check", gsi, self.folder / f"three.{name}.csv"])
            self.assertEqual(0, status)
            self.assertTrue(said.startswith(f"accepted {name}: ".encode()))

    def test_no_file_that_is_there_is_written_over(self):
        """Nor what a link leads to; the sheets of other stations are written."""
        stations = [STATION.replace(b"00S1", b"00S%d" % n) for n in (1, 2, 3)]
        gsi, start = self.folder / "three.gsi", self.folder / "three"
        gsi.write_bytes(b"".join(stations))
        paths = [self.folder / f"three.S{n}.csv" for n in (1, 2, 3)]
        paths[0].write_bytes(b"of the office")
        paths[1].symlink_to("elsewhere")
        for elsewhere in (None, b"of another"):
            if elsewhere is not None:
                (self.folder / "elsewhere").write_bytes(elsewhere)
                paths[2].unlink()
            status, printed, said = self.run_adjust("--all", start, stdin=answer_of(["list", gsi])[1])
            there = [f"adjust.py: {path} is there already: it stays as it is" for path in paths[:2]]
            self.assertEqual((1, b"", there), (status, printed, said.splitlines()))
            self.assertEqual(b"of the office", paths[0].read_bytes())
            self.assertTrue(paths[1].is_symlink())
            self.assertEqual(elsewhere is not None, (self.folder / "elsewhere").exists())
            self.assertEqual(0, answer_of(["check", gsi, paths[2]])[0])
        self.assertEqual(b"of another", (self.folder / "elsewhere").read_bytes())

    def test_names_control_no_terminal(self):
        """Signs in them that would are shown as escapes."""
        start = self.folder / "a\x1b[8m\nb"
        listed = answer_of(["list", EXAMPLE])[1]
        self.assertEqual(0, self.run_adjust("--all", start, stdin=listed)[0])
        status, _, said = self.run_adjust("--all", start, stdin=listed)
        self.assertEqual(1, status)
        self.assertTrue(said.endswith("a\\x1b[8m\\x0ab.S1.csv is there already: it stays as it is\n"), said)
        self.assertIn("a\\x1b[8m\\x0ab: No such file", self.run_adjust(start)[2])

    def test_a_station_that_cannot_be_written_leaves_the_others(self):
        sets = {1: [("A", 0, HALF_CIRCLE)], 2: [("B", 0, HALF_CIRCLE)]}
        apart = field_file(sets).replace(b"00S1", b"00S2")
        gsi, start = self.folder / "some.gsi", self.folder / "some"
        gsi.write_bytes(apart + STATION + STATION.replace(b"00S1", b"0S/3"))
        listed = answer_of(["list", gsi])[1]
        status, printed, said = self.run_adjust(f"--all={start}", stdin=listed)
        self.assertEqual((1, b""), (status, printed))
        self.assertEqual(2, said.count("adjust.py: "), said)
        self.assertIn("adjust.py: station S2 is not connected", said)
        self.assertIn("adjust.py: no file can have the name of station S/3", said)
        self.assertEqual([f"{start}.S1.csv"], [str(p) for p in self.folder.glob("some.*.csv")])
        self.assertEqual(2, self.run_adjust("--all=x", "--station=S1", stdin=listed)[0])
        nowhere = self.folder / "none" / "x"
        status, _, said = self.run_adjust("--all", nowhere, stdin=answer_of(["list", EXAMPLE])[1])
        cannot = f"adjust.py: cannot write {nowhere}.S1.csv: No such file or directory\n"
        self.assertEqual((1, cannot), (status, said))

    def test_what_is_no_list_is_said(self):
        one = answer_of(["list", EXAMPLE])[1]
        for text, said in [
            (b"", "the list is empty: station_check refused the field file, and has said why, or"),
            (b"refused: block 3: Hz Unit\n", "the list was refused: refused: block 3: Hz Unit"),
            (one.decode().encode("utf-16"), "this is no list of station_check, but perhaps one"),
            (one.decode().encode("utf-16-le"), "this is no list of station_check, but perhaps one"),
            (one.splitlines(True)[1], "line 1 is no line of a list of station_check"),
            (one + b"more\n", "line 6 is no line of a list of station_check: 'more'"),
            (one + b"\xff\n", "line 6 is no line of a list of station_check"),
            (b"".join(one.splitlines(True)[:-1]), "the list of station S1 is not whole"),
        ]:
            status, sheet, answer = self.run_adjust(stdin=text)
            self.assertEqual((1, b""), (status, sheet), text)
            self.assertTrue(answer.startswith(f"adjust.py: {said}"), answer)
        self.assertEqual(2, self.run_adjust(self.folder / "none")[0])

    def test_a_station_in_two_parts_is_named_with_its_parts(self):
        sets = {1: [("A", 0, HALF_CIRCLE)], 2: [("B", 0, HALF_CIRCLE), ("C", 5, HALF_CIRCLE)]}
        path = self.folder / "apart.gsi"
        path.write_bytes(field_file(sets))
        said = (
            "adjust.py: station S1 is not connected: no observation joins sets 1 with targets A "
            "to sets 2 with targets B, C\n"
        )
        listed = answer_of(["list", path])[1]
        self.assertEqual((1, b"", said), self.run_adjust(stdin=listed))

    def listed_with_gaps(self, size):
        """The list of a station in which set s sees target t where no number divides both."""
        random = Random(SEED)
        targets = {str(t): random.randrange(CIRCLE) for t in range(1, size + 1)}
        sets = {s: [t for t in targets if gcd(s, int(t)) == 1] for s in range(1, size + 1)}
        self.gsi = self.folder / f"gaps{size}.gsi"
        self.gsi.write_bytes(field_file(readings_of(random, sets, targets, 30)))
        return answer_of(["list", *LIMITS[:2], self.gsi])[1]

    def test_a_denominator_that_a_sheet_cannot_state_is_said(self):
        for size, version in [(7, b"1"), (11, b"2")]:
            status, sheet, said = self.run_adjust(stdin=self.listed_with_gaps(size))
            self.assertEqual((0, ""), (status, said), size)
            self.assertTrue(sheet.startswith(b"sheet," + version), sheet)
            self.assertEqual(0, self.check_sheet(self.gsi, sheet)[0], size)
        for size, args, greatest in [
            (11, ["--version=1"], "version 1 states none above 1000000000; version 2 can"),
            (13, [], "version 2 states none above 1000000000000"),
        ]:
            status, sheet, said = self.run_adjust(*args, stdin=self.listed_with_gaps(size))
            self.assertEqual((1, b""), (status, sheet), size)
            denominator = int(re.search(r"common denominator (\d+)", said)[1])
            self.assertLess(10**9 if args else 10**12, denominator)
            self.assertIn(greatest, said)


if __name__ == "__main__":
    unittest.main()
