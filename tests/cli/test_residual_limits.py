"""The limit of residuals of `compare`, `differences`, `directions` and `report`: stations at their
greatest residual and a half unit below it; a table of a reading that is 6 mgon off; which fault is
first; that a report tells the limit that held; generated stations beside the model."""

import re
import unittest
from random import Random

import model
from against_model import AgainstModel, Case
from generated import SEED, changed_table, station_to_adjust
from program import ROOT, SWEEP, ProgramTest, Run, answer_of
from rows import answer_of_residuals
from test_directions import CHAIN, TWO_PARTS, both_faces, one_set, three_sets
from test_means import largest
from worked import AGREES, PARTS, REPORT, STATION, TABLE, TABLE_15, edited, field_file, refused

STATIONS = 300 if SWEEP else 30

# The words of each command that has the limit.
COMMANDS = {
    "directions": ["directions", "{file}", "{station}"],
    "compare": ["compare", "--within=1000000", "{file}", "{station}", "{sheet}"],
    "differences": ["differences", "{file}", "{station}", "{sheet}"],
    "report": ["report", "{file}", "{station}"],
    "report --csv": ["report", "--csv", "{file}", "{station}"],
    "report --table": ["report", "--table={sheet}", "--within=1000000", "{file}", "{station}"],
}

P7 = (ROOT / "examples" / "station_p7.gsi").read_bytes()


def moved(units):
    """The field file of P7 with both readings of P8 in its second set moved by so many units of
    0.01 mgon."""
    of_p8 = re.compile(rb"(?<=00P8 21\.322\+)(\d{16})")
    first, codes, rest = P7.partition(b"*410016")
    second, code, last = rest.partition(b"*410027")
    second = of_p8.sub(lambda hz: b"%016d" % (int(hz[1]) + units), second)
    return first + codes + second + code + last


# 6 mgon in a set that has 5 of 6 targets: the adjustment leaves 3.401 mgon of them there.
MOVED = moved(600)
MOVED_TABLE = (
    b"TOWER,0.000000\nP3,64.521338\nMAST,139.404418\n"
    b"P8,212.758695\nCHURCH,278.860900\nP12,345.209189\n"
)
MOVED_AGREES = (
    b"agrees P7: 4 sets, 6 targets, within 0.001 mgon, limit 0.010 mgon, greatest residual 3.401 mgon\n"
)

# Each is a field file, its station, the least limit in half units that is kept, and the number of
# the observation whose residual is the greatest. The limit is one of the exact residuals: what is
# printed as 0.007 mgon is 4/3 half units.
HELD = [
    ("the example", STATION, "S1", 1, 1),
    ("0.320 mgon", P7, "P7", 64, 17),
    ("3.401 mgon", MOVED, "P7", 681, 10),
    ("a third of a half unit above 1", three_sets(2), "S1", 2, 5),
    ("just 4 half units", three_sets(6), "S1", 4, 5),
    ("the largest", three_sets(3_000), "S1", 2_000, 5),
    ("one set, of which nothing is left", one_set(("A", 7), ("B", 8)), "S1", 0, None),
    ("a chain, of which nothing is left", CHAIN, "S1", 0, None),
]

# Each is a field file and a table of S1, the limits of residuals and of differences, and the fault
# that stands first.
ORDER = [
    ("another unit", edited(STATION, (b"21.102", b"21.104")), TABLE, 0, 0, "block 3: Hz Unit"),
    ("no station", edited(STATION, (b"S1", b"S2")), TABLE, 0, 0, "no station\nthe file has S2"),
    ("a row", STATION, b"A,0\nB,x\n", 0, 0, "table row 2: Number"),
    ("a target without a row", STATION, b"B,0\n", 0, 0, "table: Missing 1\nthe table lacks A"),
    ("two parts", TWO_PARTS, TABLE, 0, 0, f"adjust: NotConnected\n{PARTS}"),
    (
        "a residual, though the directions are apart",
        STATION,
        TABLE_15,
        0,
        14,
        "adjust: Residual 1\nset 1, A: the greatest residual, above the limit of 0.000 mgon",
    ),
    (
        "directions that are apart",
        STATION,
        TABLE_15,
        1,
        14,
        "compare: Apart 0.015 mgon, limit 0.014 mgon",
    ),
]


def in_mgon(half_units):
    return "{}.{:03}mgon".format(*divmod(5 * half_units, 1_000))


def hint_of(gsi, number, limit):
    """Which observation it is whose residual is above a limit."""
    station = model.survey_of(gsi, model.Limits())[0]
    seen = station.observations[number - 1]
    place = f"set {station.sets[seen.set]}, {station.targets[seen.target].decode()}"
    most = in_mgon(limit).removesuffix("mgon")
    return f"{place}: the greatest residual, above the limit of {most} mgon"


class ResidualLimitsTest(ProgramTest):
    def runs(self, gsi, station, *limits):
        """What each command answers of a station that is held to no stated limit, or to this one,
        beside a table that states anything."""
        names = model.survey_of(gsi, model.Limits())[0].targets
        paths = {"file": self.folder / "field.gsi", "sheet": self.folder / "table.csv"}
        paths["file"].write_bytes(gsi)
        paths["sheet"].write_bytes(b"".join(b"%s,%d\n" % (name, n) for n, name in enumerate(names)))
        for command, words in COMMANDS.items():
            words = [word.format(station=station, **paths) for word in words]
            yield command, answer_of([*words[:1], *limits, *words[1:]])

    def test_a_limit_is_kept_up_to_the_greatest_residual(self):
        """One half unit below it each command refuses; and at it all is as ever, but that a report
        tells the limit."""
        for name, gsi, station, least, number in HELD:
            usual = dict(self.runs(gsi, station))
            for text in [str(least), in_mgon(least), "2000"]:
                limit = f"--residual={text}"
                for command, (status, printed, said) in self.runs(gsi, station, limit):
                    told = b"Limit of residuals    %s mgon\n"
                    shown = in_mgon(2_000 if text == "2000" else least).removesuffix("mgon")
                    printed = printed.replace(told % shown.encode(), told % b"10.000")
                    with self.subTest(name, command=command, limit=text):
                        self.assertEqual(usual[command], (status, printed, said))
            if least:
                for limit in [f"--residual={least - 1}", f"--residual={in_mgon(least - 1)}"]:
                    for command, answer in self.runs(gsi, station, limit):
                        with self.subTest(name, command=command, limit=limit):
                            said = refused(f"adjust: Residual {number}", hint_of(gsi, number, least - 1))
                            self.assertEqual((1, b"", said), answer)

    def test_a_reading_that_is_6_mgon_off_once_agreed_without_a_word(self):
        """Its residual of -3.401 mgon is told, and held to the limit."""
        args = ["compare", "{file}", "P7", "{sheet}"]
        printed = model.directions(MOVED, b"P7")[1]
        self.assertEqual(MOVED_TABLE, printed)
        for limit, said, told in [
            ("10mgon", None, None),
            ("3.405mgon", None, None),
            ("3.4mgon", "adjust: Residual 10", "3.400"),
            ("1mgon", "adjust: Residual 10", "1.000"),
        ]:
            answer = {"stdout": MOVED_AGREES}
            if said:
                hint = f"set 2, P8: the greatest residual, above the limit of {told} mgon"
                answer = {"stderr": refused(said, hint), "status": 1}
            words = [*args, f"--residual={limit}"]
            self.check([Run(limit, words, file=MOVED, sheet=MOVED_TABLE, **answer)])
        self.check([Run("no limit", args, file=MOVED, sheet=MOVED_TABLE, stdout=MOVED_AGREES)])
        row = b"2,P8,312.763360,312.759959,-3.401\n"
        _, rows, _ = answer_of_residuals(self.folder / "field.gsi", "P7")
        self.assertIn(row, rows.splitlines(keepends=True))

    def test_the_residuals_of_a_refused_station_are_printed(self):
        """Where no limit is stated, so that the residual that was refused is found."""
        field = self.folder / "field.gsi"
        field.write_bytes(MOVED)
        self.assertEqual(model.reported_rows(MOVED, b"P7"), answer_of(["report", "--csv", field, "P7"]))

    def test_no_limit_is_printed_that_did_not_hold(self):
        """Each report tells the limit to which it was held: the stated one, or the largest."""
        field, table = self.folder / "field.gsi", self.folder / "table.csv"
        field.write_bytes(STATION)
        table.write_bytes(TABLE_15)
        for limit in [None, 1, 2, 3, 199, 200, 201, 1_000, 1_999, 2_000]:
            shown = b"%d.%03d" % divmod(5 * (2_000 if limit is None else limit), 1_000)
            stated = [] if limit is None else [f"--residual={limit}"]
            with self.subTest(limit):
                report = REPORT.replace(b"residuals    10.000", b"residuals    " + shown)
                expected = 0, report % bytes(field), b""
                self.assertEqual(expected, answer_of(["report", *stated, field, "S1"]))
                args = ["report", *stated, f"--table={table}", field, "S1"]
                status, printed, said = answer_of(args)
                self.assertEqual((0, b""), (status, said))
                self.assertIn(b"\nLimit of residuals    " + shown + b" mgon\n", printed)

    def test_the_first_fault_is_named(self):
        """What is refused before residuals are looked at, and after."""
        for name, gsi, table, residual, within, fault in ORDER:
            limits = [f"--residual={residual}", f"--within={within}"]
            args = ["compare", "{file}", "S1", "{sheet}", *limits]
            self.check([Run(name, args, file=gsi, sheet=table, stderr=refused(fault), status=1)])
            report = ["report", "--table={sheet}", *limits, "{file}", "S1"]
            paths = {"file": self.folder / "field.gsi", "sheet": self.folder / "sheet.csv"}
            status, printed, said = answer_of([word.format(**paths) for word in report])
            with self.subTest(name):
                self.assertEqual((1, refused(fault)), (status, said))
                self.assertEqual(fault.startswith("compare"), bool(printed))

    def test_the_largest_station_keeps_a_limit_of_0(self):
        _, sets, *_ = largest()
        file = field_file(sets)
        names, directions = zip(*[(b"%d" % (t + 1), 10_000 * t) for t in range(100)])
        table = model.table_text(names, directions, 6)
        agrees = b"agrees S1: %d sets, 100 targets, within 0.000 mgon, limit 0.010 mgon, " % len(sets)
        agrees += b"greatest residual 0.000 mgon\n"
        args = ["compare", "--residual=0", "{file}", "S1", "{sheet}"]
        self.check([Run("the largest", args, file=file, sheet=table, stdout=agrees)])
        args = ["directions", "--residual=0mgon", "{file}", "S1"]
        self.check([Run("its directions", args, file=file, stdout=table)])

    def test_the_greatest_residual_is_that_of_the_report_without_its_sign(self):
        """As it is rounded there, what lies in the middle of two upwards: of -0.0025 and of 0.0025
        mgon it is 0.003."""
        sets = {1: [both_faces("A", 0), both_faces("B", 0)]}
        sets[2] = [both_faces("A", 0), ("B", 0, 20_000_002)]
        halves = field_file(sets)
        for gsi, greatest, agrees in [
            (STATION, b"-0.005 mgon, set 1, target A", AGREES),
            (halves, b"0.003 mgon, set 1, target B", None),
        ]:
            field, table = self.folder / "field.gsi", self.folder / "table.csv"
            field.write_bytes(gsi)
            _, printed, _ = answer_of(["report", field, "S1"])
            self.assertIn(b"\nGreatest residual     " + greatest + b"\n", printed)
            table.write_bytes(answer_of(["directions", field, "S1"])[1])
            told = greatest.partition(b",")[0].removeprefix(b"-")
            _, printed, _ = answer_of(["compare", field, "S1", table])
            self.assertTrue(printed.endswith(b", greatest residual " + told + b"\n"), printed)
            self.assertEqual(agrees or printed, printed)


class GeneratedTest(AgainstModel):
    def test_generated_stations_at_their_greatest_residual(self):
        """Each command over each station, held to its greatest residual, a half unit less and
        others, beside the model."""
        for place in range(STATIONS):
            random = Random(f"{SEED} residual limits {place}")
            gsi = station_to_adjust(random)
            [station] = model.survey_of(gsi, model.Limits())
            try:
                _, residuals = model.least_squares(station)
            except model.Refusal:
                continue
            least = -(-max(map(abs, residuals)) // model.HALF_UNIT)
            table = changed_table(random, station)
            limits = {least, max(0, least - 1), random.randrange(2_001), 0, 2_000}
            self.compare(
                Case(f"{place}: {limit}", command, gsi, table, within=within, residual=limit)
                for limit in sorted(limits)
                for command in COMMANDS
                for within in [None if command not in ("compare", "report --table") else 1_000_000]
            )


if __name__ == "__main__":
    unittest.main()
