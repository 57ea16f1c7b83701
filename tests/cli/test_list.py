"""The lists of field files, as lines and as rows."""

import csv
import io
import itertools

from program import EXAMPLE, ProgramTest, Run, answer_of
from worked import JOB, LIST, LIST_ROWS, STATION, edited, field_file, refused, widened

LISTING = ["list", "{file}"]

LISTING_ROWS = ["list", "--csv", "{file}"]

TITLES = b"station,set,target,direction,2c,2i\n"

# The first direction of the example, its zenith angle, and the number of its first set.
DIRECTION = b"0A 21.102+00000000"
ZENITH = b"00000000 22.102+10000000"
FIRST_SET = b"42....+00000001"
LAST_LINE = b"410012+00000030\r\n"
OTHER_WORDS = b" 31..00+00012345 51....+0000+000 87..10+00001500"
THREE_LINES = b"".join(STATION.splitlines(keepends=True)[:3])
FIVE_LINES = b"".join(STATION.splitlines(keepends=True)[:5])

# Each is a field file with a fault, and the fault.
FAULTS = [
    ("another unit", edited(STATION, (DIRECTION, b"0A 21.104+00000000")), "block 3: Hz Unit"),
    (
        "another input mode",
        edited(STATION, (DIRECTION, b"0A 21.112+00000000")),
        "block 3: Hz InputMode",
    ),
    ("a minus", edited(STATION, (DIRECTION, b"0A 21.102-00000000")), "block 3: Hz Sign"),
    (
        "a blank for a digit",
        edited(STATION, (DIRECTION, b"0A 21.102+0000000 ")),
        "block 3: Hz Digits",
    ),
    ("a full circle", edited(STATION, (DIRECTION, b"0A 21.102+40000000")), "block 3: Hz Range"),
    (
        "a zenith of 400 gon",
        edited(STATION, (ZENITH, b"00000000 22.102+40000000")),
        "block 3: Zenith Range",
    ),
    (
        "a zenith of 200 gon",
        edited(STATION, (ZENITH, b"00000000 22.102+20000000")),
        "block 3: FaceUnclear",
    ),
    (
        "a zenith of 0 gon",
        edited(STATION, (ZENITH, b"00000000 22.102+00000000")),
        "block 3: FaceUnclear",
    ),
    ("no zenith", edited(STATION, (ZENITH, b"00000000")), "block 3: NoZenith"),
    (
        "two directions",
        edited(STATION, (ZENITH, b"00000000 21.102+00000000 22.102+10000000")),
        "block 3: WordTwice 21",
    ),
    (
        "two zeniths",
        edited(STATION, (ZENITH, ZENITH + b" 22.102+10000000")),
        "block 3: WordTwice 22",
    ),
    ("a set first", b"410001+00000020 42....+00000001\n" + STATION, "block 1: SetOutside"),
    ("no code", edited(STATION, (b"410001+00000010", b"410001+00000020")), "block 1: SetOutside"),
    ("no name", b"410001+00000010\n" + STATION, "block 1: StationName"),
    ("two names", edited(STATION, (b"S1", b"S1 42....+000000S2")), "block 1: WordTwice 42"),
    ("set 0", edited(STATION, (FIRST_SET, b"42....+00000000")), "block 2: SetNumber"),
    ("set 10000", edited(STATION, (FIRST_SET, b"42....+00010000")), "block 2: SetNumber"),
    ("blanks before a set", edited(STATION, (FIRST_SET, b"42....+       1")), "block 2: SetNumber"),
    ("a letter in a set", edited(STATION, (FIRST_SET, b"42....+0000001A")), "block 2: SetNumber"),
    ("a set by a word 43", edited(STATION, (FIRST_SET, b"43....+00000001")), "block 2: SetNumber"),
    ("a set again", STATION + b"410013+00000020 42....+00000002", "block 13: SetTwice"),
    (
        "a station again",
        STATION + b"410013+00000010 42....+000000S1\n410014+00000020 42....+00000003",
        "block 14: StationTwice",
    ),
    (
        "a face again",
        THREE_LINES + b"110004+0000000A 21.102+00000001 22.102+10000000",
        "block 4: FaceTwice",
    ),
    (
        "two sets in one",
        edited(STATION, (b"410007+00000020 42....+00000002\r\n", b"")),
        "block 7: FaceTwice",
    ),
    ("one face", THREE_LINES + b"410004+00000030", "block 4: OneFace"),
    ("one face at the end", FIVE_LINES, "block 6: OneFace"),
    (
        "an empty set",
        b"".join(STATION.splitlines(keepends=True)[:2]) + b"410003+00000030",
        "block 3: EmptySet",
    ),
    (
        "an empty set at the end",
        edited(STATION, (b"00000030\r\n", b"00000020 42....+00000003")),
        "block 13: EmptySet",
    ),
    ("a foreign first word", edited(STATION, (b"410012", b"510012")), "block 12: FirstWord"),
    ("a last word cut", edited(STATION, (b"00000030\r\n", b"0000003")), "block 12: Word 1"),
    (
        "a cut word",
        FIVE_LINES + b"110006+0000000A 21.102+20000006 22.102+2999",
        "block 6: Word 3",
    ),
    ("a cut block", FIVE_LINES + b"110006+0000000A 21.102+20000006", "block 6: NoZenith"),
]

# Each is a field file that says the same as the example.
SAME = [
    ("the example", STATION),
    ("GSI-16", widened(STATION)),
    ("a block outside", b"110001+0000000A 21.104+00000000\n" + STATION),
    ("blank lines", edited(STATION, (b"\r\n", b"  \r\n\r\n"))),
    ("another code", edited(STATION, (b"110004", b"410099+?......1\r\n110004"))),
    ("no end of the last set", edited(STATION, (LAST_LINE, b""))),
    ("a reading after the end", STATION + b"110013+00000099 21.102+11111111 22.102+10000000"),
    (
        "the set ended twice",
        STATION + b"410013+00000030\n410014+00000010 42....+000000S1\n",
    ),
    ("the station named again", STATION + b"410013+00000010 42....+000000S1"),
    (
        "other words",
        edited(STATION, (b" 22.102+10000000", b" 22.102+10000000" + OTHER_WORDS)),
    ),
]

# Each is a reading in both faces, the limits of 2c and 2i or none, and what is listed or refused.
LIMITS = [
    (("A", 39_999_999, 20_000_001), None, "p 0, 2c 2, 2i 0"),
    (("A", 0, 20_002_000), None, "p 2000, 2c 2000, 2i 0"),
    (("A", 0, 19_998_000), None, "p 79998000, 2c -2000, 2i 0"),
    (("A", 0, 20_002_001), None, "block 4: TwoC"),
    (("A", 0, 20_002_001), (2_001, 0), "p 2001, 2c 2001, 2i 0"),
    (("A", 0, 20_002_001), (2_000, 1_000_000), "block 4: TwoC"),
    (("A", 0, 21_000_000), (1_000_000, 0), "p 1000000, 2c 1000000, 2i 0"),
    (("A", 0, 20_000_000, 10_000_000, 30_002_001), None, "block 4: TwoI"),
    (("A", 0, 20_000_000, 10_000_000, 30_002_001), (0, 2_001), "p 0, 2c 0, 2i 2001"),
    (("A", 0, 20_000_000, 10_000_000, 29_997_999), (1_000_000, 2_000), "block 4: TwoI"),
    (("A", 0, 20_000_000, 19_999_999, 20_000_001), (0, 0), "p 0, 2c 0, 2i 0"),
]

# The answers to the first five lines of the example and so many bytes of its sixth.
CUTS = [
    (range(0, 1), "block 6: OneFace"),
    (range(1, 15), "block 6: Word 1"),
    (range(15, 17), "block 7: OneFace"),
    (range(17, 31), "block 6: Word 2"),
    (range(31, 33), "block 6: NoZenith"),
    (range(33, 47), "block 6: Word 3"),
]


# Each is a field file, and its rows after the titles.
ROWS = [
    ("the example", STATION, LIST_ROWS.removeprefix(TITLES)),
    ("GSI-16", widened(STATION), LIST_ROWS.removeprefix(TITLES)),
    ("no bytes", b"", b""),
    ("2c of the limit", field_file({1: [("A", 0, 20_002_000)]}), b"S1,1,A,0.010000,20.00,0.00\n"),
    ("2c below 0", field_file({1: [("A", 0, 19_998_000)]}), b"S1,1,A,399.990000,-20.00,0.00\n"),
    ("half a unit", field_file({1: [("A", 0, 20_000_001)]}), b"S1,1,A,0.000005,0.01,0.00\n"),
    ("half a unit below 0", field_file({1: [("A", 0, 19_999_999)]}), b"S1,1,A,399.999995,-0.01,0.00\n"),
    (
        "2i of both signs",
        field_file({1: [("A", 0, 20_000_000, 10_000_000, 30_000_001), ("B", 1, 20_000_001, 10_000_000, 29_999_901)]}),
        b"S1,1,A,0.000000,0.00,0.01\nS1,1,B,0.000010,0.00,-0.99\n",
    ),
    ("names in quotes", field_file({1: [('A,"1', 7, 20_000_007)]}), b'S1,1,"A,""1",0.000070,0.00,0.00\n'),
    (
        "two sets and two stations",
        edited(STATION, (b"00000020 42....+00000002", b"00000010 42....+000000S2\n410007+00000020 42....+00000007")),
        edited(LIST_ROWS.removeprefix(TITLES), (b"S1,2,", b"S2,7,")),
    ),
]


def refusal(name, file, fault):
    return Run(name, LISTING, file=file, stderr=refused(fault), status=1)


class ListTest(ProgramTest):
    def test_a_fault_of_a_block_is_named(self):
        self.check([refusal(*row) for row in FAULTS])

    def test_rows_are_printed_as_other_programs_read_them(self):
        self.check([Run(name, LISTING_ROWS, file=file, stdout=TITLES + rows) for name, file, rows in ROWS])

    def test_rows_have_the_faults_of_the_list(self):
        for name, file, fault in FAULTS:
            self.check([Run(name, LISTING_ROWS, file=file, stderr=refused(fault), status=1)])

    def test_readings_in_no_set_are_noted_beside_rows(self):
        for file in [JOB, JOB.splitlines(keepends=True)[0], b"410001+00000010 42....+000000S1\n"]:
            path = self.folder / "field.gsi"
            path.write_bytes(file)
            status, stdout, stderr = answer_of(["list", path])
            self.assertEqual((0, b""), (status, stdout))
            self.assertEqual((0, TITLES, stderr), answer_of(["list", "--csv", path]))

    def test_the_flag_stands_anywhere_and_once(self):
        words = ["--two-c=10", "--csv", str(EXAMPLE)]
        for line in itertools.permutations(words):
            self.assertEqual((0, LIST_ROWS, b""), answer_of(["list", *line]))
            self.assertEqual((0, LIST, b""), answer_of(["list", *(word for word in line if word != "--csv")]))
        self.assertEqual((0, LIST_ROWS, b""), answer_of(["list", "--csv", "--", str(EXAMPLE)]))
        for flags in [["--csv=true"], ["--csv="], ["--csv", "--csv"], ["--cs"], ["--CSV"]]:
            self.assertEqual((2, b""), answer_of(["list", *flags, EXAMPLE])[:2], flags)
        for line in [["check", EXAMPLE, EXAMPLE], ["means", EXAMPLE, "S1"], ["words", EXAMPLE], ["mark", EXAMPLE]]:
            self.assertEqual((2, b""), answer_of([line[0], "--csv", *line[1:]])[:2], line)

    def test_rows_say_what_the_lines_say(self):
        rows = list(csv.reader(io.StringIO(LIST_ROWS.decode())))
        lines = [line for line in LIST.decode().splitlines() if line.startswith("set ")]
        self.assertEqual(len(lines), len(rows) - 1)
        for line, (_, number, target, direction, two_c, two_i) in zip(lines, rows[1:]):
            p = round(float(direction) * 200_000)
            faces = f"2c {round(float(two_c) * 100)}, 2i {round(float(two_i) * 100)}"
            self.assertEqual(f"set {number}, target {target}: p {p}, {faces}", line)

    def test_what_is_not_read_changes_no_list(self):
        self.check([Run(name, LISTING, file=file, stdout=LIST) for name, file in SAME])
        self.check([Run("no bytes", LISTING, file=b"")])

    def test_face_differences_are_held_to_their_limits(self):
        for reading, limits, said in LIMITS:
            args = [*LISTING]
            if limits is not None:
                args += ["--two-c", str(limits[0]), "--two-i", str(limits[1])]
            file = field_file({1: [reading]})
            if said.startswith("block"):
                run = Run(said, args, file=file, stderr=refused(said), status=1)
            else:
                listed = f"station S1: 1 sets, 1 targets, 1 directions\nset 1, target A: {said}\n"
                run = Run(said, args, file=file, stdout=listed.encode())
            self.check([run])

    def test_a_cut_file_is_refused_at_its_end(self):
        line = STATION.splitlines()[5]
        for lengths, fault in CUTS:
            files = [(length, FIVE_LINES + line[:length]) for length in lengths]
            self.check([refusal(f"{length} bytes", file, fault) for length, file in files])
        listed = b"".join(LIST.splitlines(keepends=True)[1:3])
        listed = b"station S1: 1 sets, 2 targets, 2 directions\n" + listed
        self.check([Run("a whole line", LISTING, file=FIVE_LINES + line, stdout=listed)])

    def test_a_file_has_so_many_stations_targets_and_sets(self):
        station = (
            "410001+00000010 42....+{:08}\n410002+00000020 42....+00000001\n"
            "110003+0000000A 21.102+00000000 22.102+10000000\n"
            "110004+0000000A 21.102+20000000 22.102+30000000\n"
        )
        stations = "".join(map(station.format, range(1, 1_001))).encode()
        opened = b"410001+00000010 42....+00001001\n410002+00000020 42....+00000001\n"
        targets = [(str(target), 0, 20_000_000) for target in range(1, 102)]
        sets = {of_set: targets[:1] for of_set in range(1, 42)}
        self.check(
            [
                refusal("1,001 stations", stations + opened, "block 4002: TooManyStations"),
                refusal("101 targets", field_file({1: targets}), "block 103: TooManyTargets"),
                refusal("41 sets", field_file(sets), "block 122: TooManySets"),
            ]
        )
        path = self.folder / "field.gsi"
        path.write_bytes(stations)
        status, stdout, stderr = answer_of(["list", path])
        self.assertEqual((0, b""), (status, stderr))
        self.assertEqual(1_000, stdout.count(b"station "))
