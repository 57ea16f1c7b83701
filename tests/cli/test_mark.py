"""`mark`: its copies beside the model over made jobs; `list` finds in each what was told, and taking
the code lines out gives the field file back, by the command of its page; the largest files."""

import itertools
import os
import re
import resource
import unittest

import model
from against_model import AgainstModel, Case
from generated import cases_of_jobs
from pages import page_steps
from program import ROOT, SWEEP, ProgramTest, answer_in_shell, answer_of
from worked import JOB, LIST, MARKED, NOTES, refused

# How many times three jobs are made.
JOBS = 4_000 if SWEEP else 300

# The page with the command by which anybody sees that only code lines were put in.
PAGE = ROOT / "docs" / "MARK.md"
TAKEN_OUT = re.compile(r"sed -E '[^']*' ")

# A fault that the copy of a job may have: it is of the readings. Some are made with an angle of 0.
OF_READINGS = re.compile(rb": Two[CI]$", re.MULTILINE)

# How a line of the list and a note tell of a station with sets.
LISTED = re.compile(rb"^station (.*): (\d+) sets, (\d+) targets, \d+ directions$", re.MULTILINE)
TOLD = re.compile(rb"^note: station (.*): (\d+) sets?, (\d+) targets?, from .*$", re.MULTILINE)

# Limits that nothing recorded breaks.
WIDE_LIMITS = ["--two-c=1000000", "--two-i=1000000"]

# The bytes of the largest file, of a line that fills it evenly, and the address space of a run.
LONGEST_FILE = model.LONGEST_FILE
LINE = 64
ROOM = 8 * LONGEST_FILE


def reading(target, face):
    """A line of GSI-8 with its end, of 64 bytes."""
    words = f"110001+{target:0>8} 21.102+{face * 20_000_000 - 20_000_000:08}"
    return f"{words} 22.102+{face * 20_000_000 - 10_000_000:08}".ljust(LINE - 1).encode() + b"\n"


def set_of(targets):
    """A set by faces, there and back."""
    there = [reading(target, 1) for target in targets]
    return b"".join([*there, *(reading(target, 2) for target in reversed(targets))])


def refused_station(name, fault, readings):
    """What is told where a file is refused for its one station, at a block."""
    leads_on = model.LEADS_ON[fault.split(": ")[1]].decode()
    outside = f"{readings} readings stay outside: {leads_on}"
    told = f"note: station {name}: not recognized, {fault}; {outside}\n"
    return told.encode() + refused(fault.replace(": ", ": mark: "))


# A set-up line of such a length, and the code lines before the set of its station.
SET_UP = b"110001+0000%04d 88..10+00001543".ljust(LINE - 1) + b"\n"
CODE_LINES = b"41....+00000010 42....+00000000\n41....+00000020 42....+00000001\n"


class MarkTest(AgainstModel):
    def marked(self, case):
        """The copy, and what is told of it, of a file that is marked."""
        field = self.folder / "field.gsi"
        field.write_bytes(case.gsi)
        status, copy, notes = answer_of(case.args(field, field))
        self.assertEqual(0, status, notes[:200])
        return copy, notes

    def test_jobs_have_the_copies_of_the_model(self):
        self.compare(case for place in range(JOBS) for case in cases_of_jobs(place))

    def test_the_list_of_a_copy_has_what_was_told(self):
        """And taking the code lines out, by the command of the page, gives the field file back."""
        steps = [step.command for step in page_steps(PAGE.read_text())]
        taken_out = next(found[0] for found in map(TAKEN_OUT.match, steps) if found)
        cases = [case for place in range(JOBS) for case in cases_of_jobs(place)]
        right = [case for case in cases if case.expected()[0] == 0]
        self.assertTrue(right)
        for case in right:
            with self.subTest(case.name):
                copy, notes = self.marked(case)
                listed = answer_of(["list", *WIDE_LIMITS, "/dev/stdin"], copy)
                if OF_READINGS.search(listed[2]):
                    continue
                self.assertEqual((0, b""), (listed[0], listed[2]))
                self.assertEqual(TOLD.findall(notes), LISTED.findall(listed[1]))
                if b"\r" not in case.gsi.replace(b"\r\n", b""):
                    self.check_lines_put_in(taken_out, case.gsi, copy)

    def check_lines_put_in(self, taken_out, text, copy):
        path = self.folder / "copy.gsi"
        path.write_bytes(copy)
        shown = answer_in_shell(f'{taken_out} "$2" | cmp - "$3"', path, self.folder / "field.gsi")
        self.assertEqual((0, b"", b""), shown)

    def test_a_copy_goes_to_a_new_file_and_over_none(self):
        job, copy = self.folder / "job.gsi", self.folder / "copy.gsi"
        job.write_bytes(JOB)
        self.assertEqual((0, b"", NOTES), answer_of(["mark", "--station=S1", job, copy]))
        self.assertEqual(MARKED, copy.read_bytes())
        for path in [copy, job, self.folder]:
            there = (2, b"", b"already there: %s\n" % bytes(path))
            self.assertEqual(there, answer_of(["mark", job, path]))
        self.assertEqual((JOB, MARKED), (job.read_bytes(), copy.read_bytes()))
        missing = self.folder / "missing" / "copy.gsi"
        self.assertEqual((1, b"", refused("write failed")), answer_of(["mark", "--station=S1", job, missing]))

    def test_a_refusal_leaves_no_new_file(self):
        job, copy = self.folder / "job.gsi", self.folder / "copy.gsi"
        job.write_bytes(MARKED)
        status, printed, said = answer_of(["mark", "--station=S1", job, copy])
        self.assertEqual((1, b""), (status, printed), said)
        self.assertFalse(copy.exists())
        unread = (2, b"", b"cannot open %s\n" % bytes(self.folder / "none"))
        self.assertEqual(unread, answer_of(["mark", self.folder / "none", copy]))
        self.assertFalse(copy.exists())

    def test_a_name_of_the_command_line_is_the_station(self):
        for name in ["P7", "A B", "8 bytes.", "10"]:
            copy, notes = self.marked(Case(name, "mark", set_of("AB"), station=name))
            self.assertTrue(notes.startswith(f"note: station {name}: 1 set, ".encode()), notes)
            self.assertIn(f" 42....+{name:0>8}\n".encode(), copy)

    def test_what_is_stated_never_changes_a_copy(self):
        """Each number of sets and of targets refuses, or the copy is that without them."""
        job = set_of("ABC") * 2
        for stated in itertools.product([None, 1, 2, 3, 40], [None, 2, 3, 4, 100]):
            case = Case(str(stated), "mark", job, stated=model.StatedSets(*stated))
            with self.subTest(stated=stated):
                if stated[0] in (None, 2) and stated[1] in (None, 3):
                    self.assertEqual(self.marked(Case("", "mark", job)), self.marked(case))
                else:
                    kind = "TargetCount" if stated[0] in (None, 2) else "SetCount"
                    refusal = refused_station("S1", f"block 1: {kind}", 12)
                    self.assertEqual((1, b"", refusal), self.compare([case])[0])

    def test_sets_by_targets_are_never_shifted_in_silence(self):
        """An orientation in both faces, or two, then sets by targets, of which the last is broken
        off at each place: what is marked are never other sets than were read to the end."""
        for count, sets, cut in itertools.product(range(2, 5), range(1, 4), range(8)):
            targets = "ABCDE"[:count]
            whole = b"".join(reading(t, face) for t in targets for face in (1, 2))
            part = whole[: LINE * min(cut, 2 * count - 1)]
            for before in range(3):
                seen = b"".join(reading(t, face) for t in targets[count - before :] for face in (1, 2))
                job = seen + whole * sets + part
                for number in (None, sets):
                    stated = model.StatedSets(number, count)
                    case = Case(f"{targets} {sets} {cut}", "mark", job, stated=stated)
                    status, copy, _ = self.compare([case])[0]
                    if status == 0:
                        self.assertEqual(number, sets)
                        inside = re.sub(rb"(?s)^.*?(?=41[.]{4}[+]0{6}20)|41[.]{4}[+]0{6}30.*", b"", copy)
                        self.assertEqual(whole * sets, re.sub(rb"(?m)^41[.]{4}.*\n", b"", inside))

    def test_half_of_a_target_after_sets_by_targets_refuses_them(self):
        """An orientation in both faces to the target that ends the sets, of which the last lacks just
        that: shifted by it they look whole, until half of another target follows them."""
        for count, sets, detail in itertools.product(range(2, 5), range(1, 4), ["", "X", "XY"]):
            targets = "ABCD"[:count]
            whole = b"".join(reading(t, face) for t in targets for face in (1, 2))
            job = whole[-2 * LINE :] + whole * sets + whole[: -2 * LINE]
            job += b"".join(reading(t, 1) for t in detail)
            stated = model.StatedSets(sets + 1, count)
            thrice = reading("N", 1) * 2 + reading("N", 2)
            for half, status in [(b"", 0), (reading("N", 2), 1), (thrice, 1)]:
                case = Case(f"{targets} {sets} {detail}", "mark", job + half, stated=stated)
                self.assertEqual(status, self.compare([case])[0][0])

    def test_nothing_is_printed_at_a_refusal(self):
        field = self.folder / "field.gsi"
        for text, refusal in [
            (set_of("AB") * 300, refused_station("S1", "block 164: TooManySets", 1_200)),
            (set_of("AB") * 2 + b"title\n", refused("block 9: Word 1")),
            (
                set_of("ABCD") * 2 + set_of("ABCD")[: 5 * LINE],
                refused_station("S1", "block 17: FaceMissing", 21),
            ),
        ]:
            field.write_bytes(text)
            answer = answer_of(["mark", "--station=S1", field])
            self.assertEqual((1, b"", refusal), answer)

    def test_others_leave_no_trace_in_a_copy(self):
        """The copy with `--others` is that in which the readings of stations with a fault are
        detail: as much is put in as of the others alone, but for code 30 where a set is open."""
        for faulty in range(4):
            jobs = [SET_UP % nth + set_of("AB") for nth in range(4)]
            jobs[faulty] = jobs[faulty][:-LINE]
            case = Case(str(faulty), "mark", b"".join(jobs), station=None)
            told = self.compare([case])[0]
            self.assertEqual((1, b""), told[:2])
            others = case._replace(stated=model.StatedSets(others=True))
            status, copy, _ = self.compare([others])[0]
            self.assertEqual(0, status)
            self.assertEqual(6 + (faulty > 0), len(re.findall(rb"(?m)^41[.]{4}", copy)))


NO_NAME = "the name of a station has 1 to 16 characters of ASCII, from the blank to '~'"
NO_CODE = "a code has 1 to 16 characters of ASCII, and is none of 10, 20 and 30, which 'mark' puts in"

# Of an option's values the one that can't stand where it does, and why.
WRONG_VALUES = [
    (["--sets=x=y"], "x=y", "state a whole number from 1 to 40, or NAME=N for one station"),
    (["--sets="], "", "state a whole number from 1 to 40, or NAME=N for one station"),
    (["--targets=P7="], "P7=", "state a whole number from 1 to 100, or NAME=N for one station"),
    (["--sets=P7=-1"], "P7=-1", "state a whole number from 1 to 40, or NAME=N for one station"),
    (["--sets=P7=0"], "P7=0", "0 is not in 1..=40"),
    (["--sets=P7=41"], "P7=41", "41 is not in 1..=40"),
    (["--targets=a=b=101"], "a=b=101", "101 is not in 1..=100"),
    (["--sets==3"], "=3", NO_NAME),
    (["--sets=\u00e9=3"], "\u00e9=3", NO_NAME),
    (["--targets=SEVENTEEN OF BYTE=3"], "SEVENTEEN OF BYTE=3", NO_NAME),
    (["--sets=2", "--sets=2"], "2", "another number is stated for all stations before it"),
    (["--sets=4", "--sets=P7=3", "--sets=5"], "5", "another number is stated for all stations before it"),
    (["--sets=P7=3", "--sets=00P7=3"], "00P7=3", "another number is stated for this station before it"),
    (["--targets=a=b=3", "--targets=a=b=4"], "a=b=4", "another number is stated for this station before it"),
    (["--sets=P7=3", "--sets=0", "--sets=P7=3"], "0", "0 is not in 1..=40"),
    (["--targets=0", "--sets=41"], "41", "41 is not in 1..=40"),
    (["--station-code=10", "--targets=0"], "0", "0 is not in 1..=100"),
    *(([f"--station-code={code}"], code, NO_CODE) for code in ["10", "20", "0030", "", "SEVENTEEN OF BYTE"]),
]


def wrong_values():
    """The words of `mark` with a wrong value, and the line that says so."""
    for options, value, why in WRONG_VALUES:
        # Numbers are told before the code, those of sets first.
        named = min((option.split("=")[0] for option in options), key=["--sets", "--targets", "--station-code"].index)
        yield [*options, "a"], f"error: invalid value '{value}' for '{named} <N>': {why}\n".encode()


class CommandTest(ProgramTest):
    """The command as users meet it."""

    def setUp(self):
        super().setUp()
        self.job = self.folder / "job.gsi"
        self.job.write_bytes(JOB)

    def test_the_name_of_the_station_stands_anywhere(self):
        for args in [
            ["--station", "S1", self.job],
            ["--station=S1", self.job],
            [self.job, "--station", "S1"],
            [self.job, "--station=S1"],
            ["--station=S1", "--", self.job],
        ]:
            with self.subTest(args):
                self.assertEqual((0, MARKED, NOTES), answer_of(["mark", *args]))

    def test_a_copy_is_printed_of_every_input(self):
        name = ["mark", "--station=S1"]
        self.assertEqual((0, MARKED, NOTES), answer_of([*name, "/dev/stdin"], JOB))
        pipe = self.folder / "pipe"
        os.mkfifo(pipe)
        run = answer_in_shell(f"cat '{self.job}' > '{pipe}' & \"$@\"", *name, pipe)
        self.assertEqual((0, MARKED, NOTES), run)
        piped = answer_in_shell('"$@" 2> /dev/null | "$1" list /dev/stdin', *name, self.job)
        self.assertEqual((0, LIST, b""), piped)

    def test_mistakes(self):
        for args, message in [
            ([], b"error: the following required arguments were not provided:\n  <GSI>\n"),
            (["a", "b", "c"], b"error: unexpected argument 'c' found\n"),
            (["a", ""], b"error: a value is required for '[COPY]' but none"),
            (["--two-c", "1", "a"], b"error: unexpected argument '--two-c' found\n"),
            (["a", "--station"], b"error: a value is required for '--station <NAME>' but none"),
            ([""], b"error: a value is required for '<GSI>' but none"),
            (["--station=A", "--station=A", "a"], b"error: the argument '--station <NAME>' cannot"),
            (["--sets=0", "a"], b"error: invalid value '0' for '--sets <N>': 0 is not in 1..=40\n"),
            (["--sets=41", "a"], b"error: invalid value '41' for '--sets <N>': 41 is not in 1..=40\n"),
            (["--targets=101", "a"], b"error: invalid value '101' for '--targets <N>': 101 is not in 1.."),
            (["--sets=two", "a"], b"error: invalid value 'two' for '--sets <N>': "),
            (["--station-code=40", "--station-code=40", "a"], b"error: the argument '--station-code <N>' cannot"),
            (["--same-set-up=1", "a"], b"error: unexpected value '1' for '--same-set-up' found"),
            *wrong_values(),
        ]:
            with self.subTest(args):
                status, stdout, stderr = answer_of(["mark", *args])
                self.assertEqual((2, b""), (status, stdout))
                self.assertTrue(stderr.startswith(message), stderr)
        for path in ["missing", "-"]:
            expected = 2, b"", f"cannot open {path}\n".encode()
            self.assertEqual(expected, answer_of(["mark", path]))

    def test_help_says_what_it_does(self):
        status, stdout, stderr = answer_of(["mark", "--help"])
        self.assertEqual((0, b""), (status, stderr))
        parts = [b"--station <NAME>", b"--sets <N>", b"--targets <N>", b"--others", b"<GSI>"]
        parts += [b"--same-set-up", b"--again", b"--station-code <N>", b"--sets P7=3"]
        for part in [*parts, b"Example:\n  station_check mark "]:
            self.assertIn(part, stdout)
        self.assertLessEqual(max(map(len, stdout.splitlines())), 100)


def limit_memory():
    resource.setrlimit(resource.RLIMIT_AS, (ROOM, ROOM))


class LargestFilesTest(ProgramTest):
    def answer(self, text, *options):
        """The answer of a run in so much address space as some times the file."""
        field = self.folder / "field.gsi"
        field.write_bytes(text)
        return answer_of(["mark", *options, field], preexec_fn=limit_memory)

    def test_a_thousand_stations_in_the_largest_file(self):
        stations = b"".join(SET_UP % number + set_of("AB") for number in range(1_000))
        text = stations + b"\n" * (LONGEST_FILE - len(stations))
        status, copy, notes = self.answer(text)
        self.assertEqual((0, 1_001), (status, notes.count(b"note: ")))
        self.assertEqual(len(text) + 1_000 * len(CODE_LINES), len(copy))
        self.assertEqual(text, re.sub(rb"(?m)^41[.]{4}.*\n", b"", copy))

    def test_the_largest_files_are_refused(self):
        """Nothing but one reading, sets of two targets, detail points, pairs, or set-up lines."""
        count = LONGEST_FILE // LINE
        others = b"".join(reading(f"{number}", 1) for number in range(count - 1))
        pairs = b"".join(reading(f"{at // 2}", at % 2 + 1) for at in range(count))
        of_a, at_end = reading("A", 1), refused(f"block {count + 1}: mark: NoSets")
        outside = f"note: station S1: no sets; {count} readings stay outside\n".encode()
        for text, options, refusal in [
            (of_a * count, ["--station=S1"], outside + at_end),
            (SET_UP % 1 * count, [], b"note: station 1: no readings\n" + at_end),
            *[
                (text, ["--station=S1"], refused_station("S1", fault, len(text) // LINE))
                for text, fault in [
                    (set_of("AB") + of_a * (count - 4), "block 6: ReadTwice"),
                    (set_of("AB") * (count // 4), "block 164: TooManySets"),
                    (reading("A", 2) + others, "block 1: FaceMissing"),
                    (others + reading("A", 2), f"block {count}: FaceMissing"),
                    (pairs, "block 204: TooManyTargets"),
                ]
            ],
            (b"\n" * (LONGEST_FILE + 1), ["--station=S1"], refused("block 1: FileTooLong")),
        ]:
            with self.subTest(refusal):
                self.assertEqual((1, b"", refusal), self.answer(text, *options))


if __name__ == "__main__":
    unittest.main()
