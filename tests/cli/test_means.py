"""The sheets of complete stations, each of which is checked too."""

from program import EXAMPLE, ProgramTest, Run, answer_of
from worked import SHEET, STATION, edited, field_file, refused, widened

MEANS = ["means", "{file}", "S1"]

# Each is the readings of a station, its sheet, and the greatest residual.
STATIONS = [
    (
        "across the end of the circle",
        {1: [("A", 39_999_999, 20_000_001)]},
        b"sheet,1,S1,1,\ntarget,,A,0,\nset,1,,0,\nobs,1,A,0,0\n",
        b"1 sets, 1 targets, 1 directions, greatest residual 0/1",
    ),
    (
        "a set turned on",
        {
            1: [("A", 0, 20_000_000), ("B", 39_999_995, 19_999_995)],
            2: [("A", 10, 20_000_010), ("B", 2, 20_000_002)],
        },
        b"sheet,1,S1,4,\ntarget,,A,0,\ntarget,,B,319999948,\nset,1,,-6,\nset,2,,-74,\n"
        b"obs,1,A,0,0\nobs,1,B,79999990,0\nobs,2,A,20,0\nobs,2,B,4,1\n",
        b"2 sets, 2 targets, 4 directions, greatest residual 6/4",
    ),
    (
        "a set turned back",
        {
            1: [("A", 0, 20_000_000), ("B", 5, 20_000_005)],
            2: [("A", 10, 20_000_010), ("B", 39_999_997, 19_999_997)],
        },
        b"sheet,1,S1,4,\ntarget,,A,0,\ntarget,,B,-32,\nset,1,,-36,\nset,2,,-44,\n"
        b"obs,1,A,0,0\nobs,1,B,10,0\nobs,2,A,20,0\nobs,2,B,79999994,-1\n",
        b"2 sets, 2 targets, 4 directions, greatest residual 36/4",
    ),
    (
        "half a circle is turned back",
        {
            1: [("A", 0, 20_000_000), ("B", 0, 20_000_000)],
            2: [("A", 0, 20_000_000), ("B", 20_000_000, 0)],
        },
        b"sheet,1,S1,4,\ntarget,,A,0,\ntarget,,B,-80000000,\nset,1,,-40000000,\nset,2,,40000000,\n"
        b"obs,1,A,0,0\nobs,1,B,0,0\nobs,2,A,0,0\nobs,2,B,40000000,-1\n",
        b"2 sets, 2 targets, 4 directions, greatest residual 40000000/4",
    ),
    (
        "a name in quotes",
        {1: [('A,"1', 0, 20_000_006)]},
        b'sheet,1,S1,1,\ntarget,,"A,""1",0,\nset,1,,-6,\nobs,1,"A,""1",6,0\n',
        b"1 sets, 1 targets, 1 directions, greatest residual 0/1",
    ),
]


def reading(target):
    """The readings of a target of the largest station, alike in all sets."""
    return str(target), 1_000 * target, 20_000_000 + 1_000 * target


def largest():
    """The readings of the largest station, its sheet, and the greatest residual."""
    targets = range(1, 101)
    readings = [reading(target) for target in targets]
    rows = ["sheet,1,S1,4000,"]
    rows += [f"target,,{target},{8_000_000 * (target - 1)}," for target in targets]
    rows += [f"set,{of_set},,-8000000," for of_set in range(1, 41)]
    for of_set in range(1, 41):
        rows += [f"obs,{of_set},{target},{2_000 * target},0" for target in targets]
    sheet = "".join(f"{row}\n" for row in rows).encode()
    greatest = b"40 sets, 100 targets, 4000 directions, greatest residual 0/4000"
    return "the largest station", {of_set: readings for of_set in range(1, 41)}, sheet, greatest


class MeansTest(ProgramTest):
    def test_means_are_written_and_accepted(self):
        for name, sets, sheet, greatest in [*STATIONS, largest()]:
            file = field_file(sets)
            self.check([Run(name, MEANS, file=file, stdout=sheet)])
            check = ["check", "{file}", "{sheet}"]
            accepted = b"accepted S1: " + greatest + b"\n"
            self.check([Run(name, check, file=file, sheet=sheet, stdout=accepted)])

    def test_the_largest_station_takes_no_target_and_no_set_more(self):
        """The 101st target is refused at its first reading, the 41st set where it is opened."""
        _, sets, sheet, _ = largest()
        another_target = {**sets, 1: [*sets[1], reading(101)]}
        another_set = {**sets, 41: sets[1]}
        for sets, fault in [
            (another_target, "block 103: TooManyTargets"),
            (another_set, "block 8042: TooManySets"),
        ]:
            file, refusal = field_file(sets), refused(fault)
            for args in [MEANS, ["list", "{file}"], ["check", "{file}", "{sheet}"]]:
                name = f"{args[0]}: {fault}"
                self.check([Run(name, args, b"", file, sheet, stderr=refusal, status=1)])

    def test_the_files_of_one_station_have_one_sheet(self):
        outside = b"110001+0000000A 21.104+00000000\n" + STATION
        for name, file in [
            ("GSI-8", STATION),
            ("GSI-16", widened(STATION)),
            ("a block outside", outside),
        ]:
            self.check([Run(name, MEANS, file=file, stdout=SHEET)])

    def test_an_observation_may_not_be_missing(self):
        gone = (b"110009", b"110010")
        lines = [line for line in STATION.splitlines(keepends=True) if line[:6] not in gone]
        refusal = refused("means: Incomplete")
        self.check([Run("one", MEANS, file=b"".join(lines), stderr=refusal, status=1)])

    def test_a_station_is_looked_up_by_its_whole_name(self):
        for name in ["S9", "", " S1", "0S1", "s1", "S1S1S1S1S1S1S1S1S", "\x7f"]:
            with self.subTest(name=name):
                answer = answer_of(["means", EXAMPLE, name])
                self.assertEqual((1, b"", refused("no station")), answer)
        self.check([Run("no bytes", MEANS, file=b"", stderr=refused("no station"), status=1)])
        fault = edited(STATION, (b"0A 21.102+00000000", b"0A 21.104+00000000"))
        args, refusal = ["means", "{file}", "S9"], refused("block 3: Hz Unit")
        self.check([Run("a fault", args, file=fault, stderr=refusal, status=1)])

    def test_a_name_that_begins_with_a_minus_follows_after_two(self):
        file = edited(STATION, (b"000000S1", b"00000-S1"))
        sheet = edited(SHEET, (b"S1", b"-S1"))
        self.check([Run("after two", ["means", "{file}", "--", "-S1"], file=file, stdout=sheet)])
        status, stdout, stderr = answer_of(["means", EXAMPLE, "-S1"])
        self.assertEqual((2, b""), (status, stdout))
        self.assertTrue(stderr.startswith(b"error: unexpected argument '-S' found\n"), stderr)
