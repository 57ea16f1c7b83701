"""The reports of stations: examples worked out by hand; the path and the limits as they were given; a
table that agrees and one that is apart; a wrong direction that stands alone; digests beside those of
`sha256sum`; paths that would add lines or control a terminal; readings across 0; the rows of `--csv`;
generated stations and tables beside the model; what was typed; German and French. No line is wider
than 78 characters but those of paths, of notes and of what is missing, and none ends in a blank."""

import subprocess
import unittest
from functools import partial
from itertools import product
from pathlib import Path
from random import Random

import model
from against_model import AgainstModel, Case
from generated import SEED, changed_table, station_to_adjust
from program import EXAMPLE, SWEEP, ProgramTest, Run, answer_of
from test_directions import FAULTS, both_faces, one_set
from test_means import largest
from worked import (
    REPORT,
    REPORT_ROWS,
    SECTION,
    STATION,
    TABLE_15,
    edited,
    field_file,
    refused,
    widened,
)

STATIONS = 300 if SWEEP else 30

# No line is wider, but for those that begin so: of paths.
WIDEST = 78
WIDER = b"Field file ", b"Table "

# The zenith angles of a made reading, in both faces and as their mean.
ZENITHS = b",100.000000,300.000000,100.000000"

# Where targets are that are read again and again.
DIRECTIONS = {"A": 0, "B": 5_000_000, "C": 12_345_678}

# What a report has of the table of P7 whose P8 is off.
FROM_THE_MEDIAN = b"""\
  TOWER                     0.000000        -0.502             -0.002
  P3                       64.521340        -0.499              0.001
  MAST                    139.404540        -0.500              0.000
  P8                      212.758200         0.503              1.003
  CHURCH                  278.860590        -0.503             -0.003
  P12                     345.209190        -0.500              0.000
"""

# Words of the first block of a field file and of its last; the lines of a report that tell them, and
# what its rows have of them.
RECORDED = [
    (b"", b"", b"", []),
    (b"14....+00345678 16....+00000001", b"20....+00000012", b"", []),
    (b"12....+00345678", b"", b"  12 serial number    00345678\n", [b"12,00345678"]),
    (b"", b"12....+00345678", b"  12 serial number    00345678\n", [b"12,00345678"]),
    (b"12....-00345678", b"12..9.+00345678", b"  12 serial number    00345678\n", [b"12,00345678"]),
    (
        b"12....+00345678",
        b"12....+00345679",
        b"  12 serial number    00345678 and others\n",
        [b"12,00345678", b"12,00345679"],
    ),
    (
        b"13..1.+0000TS16 13..1.+0000TS15",
        b"13..1.+0000TS16",
        b"  13 instrument type  0000TS16 and others\n",
        [b"13,0000TS16", b"13,0000TS16"],
    ),
    (b"13..1.+TS16,1\" ", b"", b"  13 instrument type  TS16,1\" \n", [b'13,"TS16,1"" "']),
    (
        b"17....+27112026",
        b"17....+28112026",
        b"  17 date             27112026 to 28112026\n",
        [b"17,27112026", b"17,28112026"],
    ),
    (
        b"18....+00002630 18....+00003121",
        b"18....+00002630",
        b"  18 time format 1    00002630 and others\n",
        [b"18,00002630", b"18,00002630"],
    ),
    (
        b"19....+11270915 19....+11270917",
        b"",
        b"  19 time format 2    11270915 to 11270917\n",
        [b"19,11270915", b"19,11270917"],
    ),
    (
        b"19....+11270915 18....+00002630 17....+27112026",
        b"13....+      12 12....+00345678",
        b"  12 serial number    00345678\n"
        b"  13 instrument type        12\n"
        b"  17 date             27112026\n"
        b"  18 time format 1    00002630\n"
        b"  19 time format 2    11270915\n",
        [b"12,00345678", b"13,      12", b"17,27112026", b"18,00002630", b"19,11270915"],
    ),
]

# Contents of such words.
CONTENTS = [b"345678", b"345679", b"27112026", b"TS16", b" 1 "]

# Names of files, and how a report shows them.
PATHS = [
    ("a\nb", b"\\a\\nb"),
    ("a\rb", b"\\a\\rb"),
    ("\\", b"\\\\\\"),
    ("\x1b[31mred", b"\\\\x1b[31mred"),
    ("\\x1b[31mred", b"\\\\\\x1b[31mred"),
    ("\t\x01\x1f\x7f \\", b"\\\\x09\\x01\\x1f\\x7f \\\\"),
    ("\u00e9\u0080", "\u00e9\u0080".encode()),
]


def lines_of(text, *beginnings):
    """The lines of a text that begin so."""
    return [line for line in text.splitlines() if line.startswith(beginnings)]


def with_words(file, first, last):
    """A file with these words at the end of its first block and of its last."""
    lines = file.splitlines()
    lines[0] = lines[0].rstrip() + b" " + first
    lines[-1] = lines[-1].rstrip() + b" " + last
    return b"\r\n".join(lines)


def with_random_words(random, file):
    """A file whose blocks have words of instrument and time."""
    lines = [line.rstrip() for line in file.splitlines()]
    for place, line in enumerate(lines):
        width = 16 if line.startswith(b"*") else 8
        for index in random.sample([12, 13, 17, 18, 19], random.choice([0, 0, 1, 2])):
            content = random.choice(CONTENTS).rjust(width, b"0")
            lines[place] += b" %d....%s%s" % (index, random.choice([b"+", b"+", b"-"]), content)
    return b"\n".join(lines)


class ReportTest(ProgramTest):
    def report_of(self, gsi, *options):
        """What is printed of S1."""
        field = self.folder / "field.gsi"
        field.write_bytes(gsi)
        status, printed, said = answer_of(["report", *options, field, "S1"])
        self.assertEqual((0, b""), (status, said))
        return printed

    def test_the_example(self):
        for gsi in [STATION, widened(STATION)]:
            field = self.folder / "field.gsi"
            self.assertEqual(REPORT % bytes(field), self.report_of(gsi))

    def test_the_head_has_the_name_as_given_and_the_limits(self):
        for path in [EXAMPLE, EXAMPLE.parent / "." / EXAMPLE.name, Path("/dev/stdin")]:
            for two_c, two_i, residual in [(10, 2, 1), (1_000_000, 12_345, 1_999)]:
                limits = [f"--two-c={two_c}", f"--two-i={two_i}", f"--residual={residual}"]
                _, printed, _ = answer_of(["report", *limits, path, "S1"], EXAMPLE.read_bytes())
                head = REPORT % bytes(path)
                head = head.replace(b"20.00", b"%d.%02d" % divmod(two_c, 100), 1)
                head = head.replace(b"20.00", b"%d.%02d" % divmod(two_i, 100), 1)
                head = head.replace(b"10.000", b"%d.%03d" % divmod(5 * residual, 1_000), 1)
                with self.subTest(path, two_c=two_c):
                    self.assertEqual(head, printed)

    def test_what_was_typed_stands_in_the_head(self):
        """As it was typed; but no note makes lines of its own, or moves what a terminal shows."""
        keys = ["Project", "Ger\u00e4t", "K" * 21, "K" * 40, "a\nb", "\x1b[31m", " ", "Set up", "a  b"]
        texts = ["", "=", "Dam = north", "a\nSets                  9", "\\", "\u00e9" * 90, "\x7f"]
        for key, text in product(keys, texts):
            typed = [f"--note={key}={text}", f"--date={text}", f"--note={text or key}={key}", "--signature"]
            found = answer_of(["report", *typed, EXAMPLE, "S1"])
            lines = [note for note in typed if note.startswith("--note=")]
            noted = [model.note_in(note.removeprefix("--note=").encode()) for note in lines]
            with self.subTest(key=key, text=text):
                if None in noted:
                    self.assertEqual(2, found[0])
                    continue
                notes = model.ReportNotes(text.encode(), noted, True)
                self.assertEqual(model.reported(STATION, bytes(EXAMPLE), b"S1", notes=notes), found)

    def test_what_the_file_recorded_stands_below_its_path(self):
        """As it stands, and nowhere else; with a table too, and above the digests."""
        table = self.folder / "table.csv"
        table.write_bytes(TABLE_15)
        for options in [], ["--signature"], [f"--table={table}"]:
            plain = self.report_of(STATION, *options).splitlines(keepends=True)
            for first, last, recorded, _ in RECORDED:
                gsi = with_words(STATION, first, last)
                with self.subTest(first=first, last=last, options=options):
                    expected = b"".join([*plain[:3], recorded, *plain[3:]])
                    self.assertEqual(expected, self.report_of(gsi, *options))
                    digests = self.report_of(gsi, *options, "--sha256")
                    self.assertTrue(digests.startswith(expected + b"\nSHA-256 digests"))

    def test_what_the_file_recorded_stands_below_the_rows(self):
        """Above the digest, and in both forms of rows."""
        for first, last, _, recorded in RECORDED:
            gsi = with_words(STATION, first, last)
            expected = REPORT_ROWS + b"".join(b"recorded,%s%s\n" % (row, b"," * 10) for row in recorded)
            with self.subTest(first=first, last=last):
                self.assertEqual(expected, self.report_of(gsi, "--csv"))
                self.assertTrue(self.report_of(gsi, "--csv", "--sha256").startswith(expected + b"file,"))
                rows = model.reported_rows(gsi, b"S1", decimal_comma=True)[1]
                self.assertEqual(rows, self.report_of(gsi, "--csv", "--decimal-comma"))

    def test_a_label_of_the_head_is_no_note(self):
        """Nor is one with blanks that would make its line that of the label; but a label of another
        language is."""
        for code, language in model.LANGUAGES.items():
            own = [language.said(label) for label in model.OWN_LABELS]
            for label, form in product(own, [b"%s", b"%s ", b"%-21s", b"%-22sS9", b" %s"]):
                key = form % label
                args = ["report", b"--note=%s=x" % key, f"--language={code}", EXAMPLE, "S1"]
                with self.subTest(key=key, code=code):
                    status, printed, said = answer_of(args)
                    self.assertEqual((2, b""), (status, printed))
                    self.assertIn(b"invalid value '%s=x' for '--note <KEY=TEXT>'" % key, said)
        for code, key in [("en", "Messdatei"), ("de", "Field file"), ("fr", "Sätze")]:
            args = ["report", f"--note={key}=x", f"--language={code}", EXAMPLE, "S1"]
            with self.subTest(key=key, code=code):
                self.assertEqual((0, b""), answer_of(args)[::2])

    def test_languages_beside_the_model(self):
        """With a table, digests and notes, of stations that have gaps and that have nothing to
        compare; and no line is wider than it may be."""
        field, table = self.folder / "field.gsi", self.folder / "table.csv"
        for place in range(STATIONS):
            file = station_to_adjust(Random(f"{SEED} language {place}"))
            field.write_bytes(file)
            table.write_bytes(answer_of(["directions", field, "S1"])[1])
            for code, language in model.LANGUAGES.items():
                notes = model.ReportNotes(b"30.11.2026", [("Gerät".encode(), b"TS16")], True, language)
                typed = ["--date=30.11.2026", "--note=Gerät=TS16", "--signature", f"--language={code}"]
                stated = model.ReportTable(bytes(table), table.read_bytes())
                report = partial(model.reported, file, bytes(field), b"S1", notes=notes)
                files = (bytes(field), file), (bytes(table), stated.text)
                recorded = model.with_digests(report(table=stated), *files, language=language)
                with self.subTest(place, code=code):
                    found = answer_of(["report", *typed, field, "S1"])
                    self.assertEqual(report(), found)
                    args = ["report", *typed, "--sha256", f"--table={table}", field, "S1"]
                    self.assertEqual(recorded, answer_of(args))
                    wider = language.said("in set") + b" "
                    for line in found[1].splitlines()[3:]:
                        if not line[22:].startswith(wider):
                            self.assertLessEqual(len(line.decode()), WIDEST, line)
                        self.assertEqual(line.rstrip(), line)

    def test_a_language_is_of_a_report_to_read(self):
        for args, said in [
            (["report", "--language=it", EXAMPLE, "S1"], b"state en for English, de for German or fr for French\n"),
            (["report", "--csv", "--language=de", EXAMPLE, "S1"], b"'--csv' prints rows alone"),
            (["list", "--language=de", EXAMPLE], b"unexpected argument '--language'"),
        ]:
            with self.subTest(args=args):
                found = answer_of(args)
                self.assertEqual((2, b""), found[:2])
                self.assertIn(said, found[2])
        _, english, _ = answer_of(["report", EXAMPLE, "S1"])
        self.assertEqual(english, answer_of(["report", "--language=en", EXAMPLE, "S1"])[1])
        german, one = [answer_of(["report", "--language=de", *of])[1] for of in [["--all", EXAMPLE], [EXAMPLE, "S1"]]]
        self.assertEqual(one, german)

    def test_the_first_fault_is_named(self):
        for name, file, station, fault in FAULTS:
            args = ["report", "{file}", station]
            self.check([Run(name, args, file=file, stderr=refused(fault), status=1)])

    def test_limits_are_those_of_the_command_line(self):
        for option, fault in [("--two-c=9", "block 5: TwoC"), ("--two-i=1", "block 6: TwoI")]:
            args = ["report", option, "{file}", "S1"]
            self.check([Run(option, args, file=STATION, stderr=refused(fault), status=1)])

    def test_where_no_angle_was_measured_twice_there_are_no_residuals(self):
        """Of one set; of one target in two sets; of two sets that share one target."""
        end = b"\n\nDegrees of freedom    0: no angle was measured twice, nothing to compare\n"
        one, other, third = ("A", 123, 20_000_123), ("B", 39_999_999, 19_999_999), ("C", 7, 20_000_007)
        for sets in [{1: [one, other]}, {1: [one], 2: [one]}, {1: [one, other], 2: [other, third]}]:
            printed = self.report_of(field_file(sets))
            with self.subTest(sets=sets):
                self.assertTrue(printed.endswith(end))
                self.assertNotIn(b"esidual", printed.partition(b"mgon\n\n")[2])
                self.assertNotIn(b"\nStandard deviation", printed)

    def test_readings_across_0(self):
        """Face I is read before 0 and face II after the half circle, and the other way round."""
        before = [("110000+0000000A", 39_999_990, 20_000_010), ("110000+0000000B", 5, 19_999_989)]
        lines = [f"{word} 21.102+{one:08} 22.102+10000000\n" for word, one, _ in before]
        lines += [f"{word} 21.102+{two:08} 22.102+30000000\n" for word, _, two in before[::-1]]
        codes = "410000+00000010 42....+000000S1\n410000+00000020 42....+00000001\n"
        rows = lines_of(self.report_of((codes + "".join(lines)).encode()), b"    1")
        self.assertEqual(
            [
                b"    1  A                 399.99990  200.00010     0.000000      0.20      0.00",
                b"    1  B                   0.00005  199.99989   399.999970     -0.16      0.00",
                b"    1  A                 100.00000  300.00000   100.000000",
                b"    1  B                 100.00000  300.00000   100.000000",
            ],
            rows,
        )

    def test_a_table_stands_after_the_adjusted_directions(self):
        table = self.folder / "table.csv"
        table.write_bytes(TABLE_15)
        before, residuals, after = (REPORT % bytes(self.folder / "field.gsi")).partition(b"Residuals")
        section = SECTION % bytes(table)
        for limit in [["--table", table], [f"--table={table}", "--within=0.055mgon"]]:
            self.assertEqual(before + section + residuals + after, self.report_of(STATION, *limit))

    def test_where_directions_are_apart_the_report_is_printed_whole(self):
        table = self.folder / "table.csv"
        table.write_bytes(TABLE_15)
        section = SECTION.replace(b"0.055 mgon", b"0.014 mgon")
        section = section.replace(b"agrees: 2 targets, within", b"apart: 2 targets, by")
        before, residuals, after = (REPORT % bytes(EXAMPLE)).partition(b"Residuals")
        expected = before + section % bytes(table) + residuals + after
        answer = answer_of(["report", "--within=14", "--table", table, EXAMPLE, "S1"])
        self.assertEqual((1, expected, refused("compare: Apart 0.015 mgon, limit 0.014 mgon")), answer)

    def test_a_right_direction_once_stood_beside_the_wrong_one(self):
        """P8 is 1 mgon off. After the best rotation it has 0.503 and CHURCH, which is right, as much on
        the other side; from the median P8 stands alone, as in `differences`."""
        field, table = (EXAMPLE.parent / name for name in ["station_p7.gsi", "station_p7_directions.csv"])
        wrong = self.folder / "wrong.csv"
        wrong.write_bytes(edited(table.read_bytes(), (b"212.75720", b"212.75820")))
        status, printed, said = answer_of(["report", "--table", wrong, field, "P7"])
        self.assertEqual((1, refused("compare: Apart 0.504 mgon, limit 0.010 mgon")), (status, said))
        section = printed.partition(b"From the median\n\n")[2].partition(b"\n\n")[0]
        self.assertEqual(FROM_THE_MEDIAN, section + b"\n")
        _, rows, _ = answer_of(["differences", field, "P7", wrong])
        columns = [line.split()[2:] for line in section.splitlines()]
        self.assertEqual(columns, [row.split(b",")[3:] for row in rows.splitlines()[1:]])

    def test_a_table_that_is_refused_is_named_and_nothing_is_printed(self):
        table = self.folder / "table.csv"
        for text, station, fault in [
            (b"A,0\nC,1\n", "S1", "table row 2: Unknown"),
            (b"B,1\n", "S1", "table: Missing 1\nthe table lacks A"),
            (b"B,1\n", "S2", "no station\nthe file has S1"),
        ]:
            table.write_bytes(text)
            answer = answer_of(["report", "--table", table, EXAMPLE, station])
            self.assertEqual((1, b"", refused(fault)), answer)

    def test_rows(self):
        for gsi in [STATION, widened(STATION)]:
            self.assertEqual(REPORT_ROWS, self.report_of(gsi, "--csv"))
        quoted = self.report_of(one_set(('A,"1', 7), ("B", 8)), "--csv").splitlines()
        self.assertEqual(b'S1,1,"A,""1",0.000070,200.000070,0.000070,0.00,0.00,0.000070,0.000' + ZENITHS, quoted[1])
        for name, file, station, fault in FAULTS:
            args = ["report", "--csv", "{file}", station]
            self.check([Run(name, args, file=file, stderr=refused(fault), status=1)])

    def test_rows_beside_something_else_are_a_mistake(self):
        """All but limits and digests, whose row is the last: the message names each of these."""
        of_table = ["'--table'", "how it is read", "'--within'"]
        named = [*of_table, "'--language'", "'--pages'", "or what a report notes"]
        said = f"error: '--csv' prints rows alone: not with {', '.join(named)}\n".encode()
        for more in [
            *[["--table", EXAMPLE], ["--degrees"], ["--dmmss"], ["--columns=1,2"], ["--columns=Target,Hz"]],
            *[["--within=10"], ["--table=a", "--within=10"], ["--pages"], ["--signature"]],
            *[["--language=de"], ["--language=en"], ["--date=today"], ["--note=a=b"], ["--sha256", "--pages"]],
        ]:
            for station in [["S1"], []]:
                with self.subTest(more, station=station):
                    found = answer_of(["report", "--csv", *more, EXAMPLE, *station])
                    self.assertEqual((2, b"", said), (*found[:2], found[2][: len(said)]))

    def test_rows_with_digests_end_with_that_of_the_file(self):
        """In the form of all rows, of a path that has to be quoted too; a refusal has none."""
        for name in ["field.gsi", "a,b", "a;b", 'a"b']:
            (self.folder / name).write_bytes(STATION)
            for is_comma, form in [(False, []), (True, ["--decimal-comma"])]:
                rows = model.reported_rows(STATION, b"S1", decimal_comma=is_comma)
                expected = model.with_file_row(rows, name.encode(), STATION, is_comma)
                for station in [["S1"], []]:
                    args = ["report", "--csv", "--sha256", *form, "--", name, *station]
                    with self.subTest(args):
                        self.assertEqual(expected, answer_of(args, cwd=self.folder))
                        self.assertTrue(expected[1].startswith(rows[1]))
        args = ["report", "--csv", "--sha256", EXAMPLE, "S2"]
        self.assertEqual((1, b"", refused("no station", "the file has S1")), answer_of(args))

    def test_a_limit_without_a_table_is_a_mistake(self):
        status, printed, said = answer_of(["report", "--within=10", EXAMPLE, "S1"])
        self.assertEqual((2, b""), (status, printed))
        self.assertIn(b"name it with '--table <TABLE>'", said)

    def test_degrees_without_a_table_are_a_mistake(self):
        status, printed, said = answer_of(["report", "--degrees", EXAMPLE, "S1"])
        self.assertEqual((2, b""), (status, printed))
        self.assertIn(b"'--degrees', '--dmmss' and '--columns' say how a table is read", said)

    def test_digests_stand_at_the_end_as_sha256sum_prints_them(self):
        """Of paths with and without bytes to escape, of a table that agrees and of one that is apart."""
        for name in ["field.gsi", "a\nb", "a\\b", "a\rb"]:
            field, table = self.folder / name, self.folder / f"{name}.csv"
            field.write_bytes(STATION)
            table.write_bytes(TABLE_15)
            files = (bytes(field), STATION), (bytes(table), TABLE_15)
            plain = model.reported(STATION, bytes(field), b"S1")
            with self.subTest(name):
                args = ["report", "--sha256", field, "S1"]
                self.assertEqual(model.with_digests(plain, files[0]), answer_of(args))
            for within in [15, 14]:
                stated = model.ReportTable(bytes(table), TABLE_15, within)
                report = model.reported(STATION, bytes(field), b"S1", table=stated)
                args = ["report", "--sha256", f"--within={within}", "--table", table, field, "S1"]
                with self.subTest(name, within=within):
                    status, printed, said = answer_of(args)
                    self.assertEqual(model.with_digests(report, *files), (status, printed, said))
                    sums = ["sha256sum", "--", field, table]
                    lines = subprocess.run(sums, check=True, capture_output=True).stdout
                    self.assertTrue(printed.endswith(lines))
        args = ["report", "--sha256", "--table", table, field, "S2"]
        self.assertEqual((1, b"", refused("no station", "the file has S1")), answer_of(args))

    def test_no_path_adds_a_line_or_controls_a_terminal(self):
        """The names of both files; a digest's line is still one that `sha256sum` reads."""
        for name, shown in PATHS:
            field, table = self.folder / name, self.folder / f"{name}.csv"
            field.write_bytes(STATION)
            table.write_bytes(TABLE_15)
            with self.subTest(name):
                answer = answer_of(["report", "--", name, "S1"], cwd=self.folder)
                self.assertEqual((0, REPORT % shown, b""), answer)
                args = ["report", "--sha256", f"--table={name}.csv", "--", name, "S1"]
                status, printed, said = answer_of(args, cwd=self.folder)
                self.assertEqual((0, b""), (status, said))
                for line in [b"Field file            " + shown, b"Table                 " + shown + b".csv"]:
                    self.assertIn(b"\n" + line + b"\n", printed)
                sums = ["sha256sum", "--", name, f"{name}.csv"]
                lines = subprocess.run(sums, check=True, capture_output=True, cwd=self.folder).stdout
                self.assertTrue(printed.endswith(lines))

    def test_each_byte_of_a_path_is_shown_so_that_no_other_is(self):
        """Of each byte that a name may have; names that differ are shown as lines that do."""
        shown = set()
        for byte in [byte for byte in range(1, 0x80) if byte != ord("/")]:
            name = b"a" + bytes([byte])
            (self.folder / name.decode()).write_bytes(STATION)
            _, printed, _ = answer_of(["report", "--", name, "S1"], cwd=self.folder)
            with self.subTest(byte=byte):
                self.assertEqual(REPORT % model.path_text(name), printed)
                self.assertNotRegex(printed, rb"[^\n\x20-\x7e]")
            shown.add(printed)
        self.assertEqual(126, len(shown))

    def test_titles_do_not_end_a_page(self):
        """The third page would end with the titles of the second group of residuals, of 15 sets; the
        second with those above the only direction of one target."""
        for names, sets, lines in [("ABC", 15, [60, 60, 59, 22]), ("A", 21, [60, 54, 18])]:
            readings = [both_faces(name, 4_000_000 * place) for place, name in enumerate(names)]
            file = field_file({of_set: readings for of_set in range(1, sets + 1)})
            pages = self.report_of(file, "--pages").split(b"\f")
            self.assertEqual(lines, [page.count(b"\n") for page in pages])
            for page in pages:
                self.assertFalse(page.rstrip(b"\n").splitlines()[-1].startswith(b"  Target"))

    def test_the_largest_station(self):
        _, sets, *_ = largest()
        printed = self.report_of(field_file(sets))
        self.assertEqual(6, len(lines_of(printed, b"  Target      Set")))
        self.assertEqual(800, len(lines_of(printed, *(b"  %d " % t for t in range(1, 101)))))
        self.assertIn(b"Degrees of freedom    3861\n", printed)
        end = (
            b"Sum of squares [vv]   0.000000 mgon^2\n"
            b"Standard deviation    0.000 mgon, of one two-face direction\n"
            b"Standard deviation    0.000 mgon, of each adjusted direction\n"
        )
        self.assertTrue(printed.endswith(end))


class GeneratedTest(AgainstModel):
    def test_generated_stations_beside_the_model(self):
        for place in range(STATIONS):
            file = station_to_adjust(Random(f"{SEED} report {place}"))
            self.compare([Case(f"{place}", command, file) for command in ["report", "report --csv"]])

    def test_generated_words_of_instrument_and_time_beside_the_model(self):
        for place in range(STATIONS):
            random = Random(f"{SEED} words {place}")
            file = with_random_words(random, station_to_adjust(random))
            self.compare([Case(f"{place}", command, file) for command in ["report", "report --csv"]])

    def test_zenith_angles_beside_the_model(self):
        """Of targets in one set and in up to forty, near each other and as far apart as they may be."""
        for place in range(STATIONS):
            random, sets = Random(f"{SEED} zenith angles {place}"), {}
            spread = random.choice([1, 3, 1_000, 19_999_990])
            for number in range(1, random.choice([1, 2, 3, 7, 40]) + 1):
                sets[number] = readings = []
                for name, direction in list(DIRECTIONS.items())[: random.randint(1, 3)]:
                    zenith = random.randrange(5, 5 + spread)
                    zeniths = zenith, model.CIRCLE - zenith + random.randint(-4, 4)
                    readings.append((name, direction, direction + model.HALF_CIRCLE, *zeniths))
            self.compare([Case(f"{place}", "report", field_file(sets))])

    def test_generated_tables_beside_the_model(self):
        for place in range(STATIONS):
            random = Random(f"{SEED} report with table {place}")
            file = station_to_adjust(random)
            table = changed_table(random, model.survey_of(file, model.Limits())[0])
            within = random.choice([None, None, 0, 10, 1_000])
            self.compare([Case(f"{place}", "report --table", file, table, within=within)])

    def test_the_largest_names_and_numbers_keep_their_columns(self):
        """Of stations up to the largest, with a table and without, each line is no wider than it may
        be and has no blank at its end."""
        field, table, printed = self.folder / "field.gsi", self.folder / "table.csv", 0
        for place in range(STATIONS):
            field.write_bytes(station_to_adjust(Random(f"{SEED} widths {place}"), 40, 100))
            table.write_bytes(answer_of(["directions", "--decimals=8", field, "S1"])[1])
            for stated in [[], [f"--table={table}", f"--within={place % 2}"]]:
                status, text, _ = answer_of(["report", "--two-c=1000000", *stated, field, "S1"])
                printed += status == 0
                for line in text.splitlines():
                    with self.subTest(place, line=line):
                        if not line.startswith(WIDER) and not line[22:].startswith(b"in set "):
                            self.assertLessEqual(len(line), WIDEST)
                        self.assertEqual(line.rstrip(), line)
        self.assertGreater(printed, STATIONS // 2)


if __name__ == "__main__":
    unittest.main()
