"""Out of memory has no size: with ample memory, input of every size gets its answer.

Each number of stations, of sets and of targets, each number that a set may have, and names of each
length have the answer that they give; files, sheets and tables of many lengths, with blanks and
empty lines in them, have the answer of those without. What is kept does not grow with blocks that open no set.
"""

import resource
import subprocess
import unittest
from unittest import mock

import model
from against_model import FIELD, SHEET, TABLE, Case, sample
from processes import in_room, peak, wants_more
from program import PROGRAM, TIME, ProgramTest, answer_of, side_by_side, until
from test_generated import lines, station

# The lengths of files, sheets and tables, in bytes.
LENGTHS = [*range(0, 5_000), *(1 << power for power in range(13, 21))]


def list_of(sets, targets):
    """The list of a station of `test_generated`: target t is at 1000 t in each set."""
    head = b"station S1: %d sets, %d targets, %d directions\n" % (sets, targets, sets * targets)
    return head + b"".join(
        b"set %d, target %d: p %d, 2c 0, 2i 0\n" % (number, target, 2_000 * target)
        for number in range(1, sets + 1)
        for target in range(1, targets + 1)
    )


def sheet_of(sets, targets):
    """Its sheet of means. All sets are alike, so each residual is 0."""
    return model.sheet_text(model.Sheet(
        b"S1",
        sets * targets,
        [(b"%d" % t, targets * sets * 2_000 * (t - 1)) for t in range(1, targets + 1)],
        [(s, -targets * sets * 2_000) for s in range(1, sets + 1)],
        [(s, b"%d" % t, 2_000 * t, 0) for s in range(1, sets + 1) for t in range(1, targets + 1)],
    ))


def table_of(targets):
    """Its table of directions."""
    return b"".join(b"%d,%d.%02d0000\n" % (t, *divmod(t - 1, 100)) for t in range(1, targets + 1))


# The commands whose answer the model works out, at each number of sets and of targets.
OTHERS = [
    "words", "list --csv", "differences", "report", "report --csv", "report --table",
]  # fmt: skip

# Those of them that take a limit of residuals, which are all 0.
HELD = ["differences", "report", "report --csv", "report --table"]


def least_squares_of_like_sets(station, limit=None):
    """The least-squares directions in gon of a station whose sets are all alike, and its residuals,
    which are 0: what the model finds by equations, of which these are too many."""
    first, *_ = station.observations
    seen = station.observations[: len(station.targets)]
    directions = [model.HALF_UNIT * (one.p - first.p) for one in seen]
    return directions, [model.HALF_UNIT * 0 for _ in station.observations]


def without_codes(field):
    """A field file without its lines of codes."""
    kept = [line for line in field.split(b"\n") if line.lstrip(b"*")[:2] != b"41"]
    return b"\n".join(kept)


def told(name, sets, targets, are_alike):
    """What `mark` tells of a station with so many sets of these targets and no other reading, of
    which all are alike or no two."""
    ends = f"from {targets[0]} to {targets[-1]}"
    words = f"{sets} set{'s' * (sets > 1)}, {len(targets)} targets, {ends}"
    outside = "0 readings before them and 0 after stay outside"
    pairs = [(a, b) for b in range(2, sets + 1) for a in range(1, b)] if are_alike else []
    alike = [f"sets {a} and {b} are the same to the last digit" for a, b in pairs]
    notes = [f"note: station {name}: {one}\n" for one in [f"{words}; {outside}", *alike]]
    return "".join([*notes, "note: compare this with the field book\n"]).encode()


def agrees(sets, targets):
    found = b"within 0.000 mgon, limit 0.010 mgon, greatest residual 0.000 mgon"
    counts = model.counted(sets, b"set"), model.counted(targets, b"target")
    return b"agrees S1: %s, %s, %s\n" % (*counts, found)


def accepted(sets, targets, name=b"S1"):
    counts = name, sets, targets, sets * targets, sets * targets
    return b"accepted %s: %d sets, %d targets, %d directions, greatest residual 0/%d\n" % counts


# Each number that a set may have.
SET_NUMBERS = range(1, 10_000)


def set_lines(number):
    """The lines of a set of one target."""
    yield f"41....+00000020 42....+{number:08}"
    yield "11....+0000000A 21.102+00000000 22.102+10000000"
    yield "11....+0000000A 21.102+20000000 22.102+30000000"


def station_of(name, numbers):
    """The lines of a station with the sets of these numbers."""
    return [f"41....+00000010 42....+{name:0>8}", *(s for n in numbers for s in set_lines(n))]


def listed_of(name, numbers):
    """The list of that station."""
    head = b"station %s: %d sets, 1 targets, %d directions\n" % (name, len(numbers), len(numbers))
    return head + b"".join(b"set %d, target A: p 0, 2c 0, 2i 0\n" % number for number in numbers)


def means_of(name, numbers):
    """Its sheet of means."""
    orientations = [(number, 0) for number in numbers]
    rows = [(number, b"A", 0, 0) for number in numbers]
    return model.sheet_text(model.Sheet(name, len(numbers), [(b"A", 0)], orientations, rows))


# Names of one kind of each length: letters, digits, and blanks, commas and quotes within.
NAMES = [
    name[:length].decode()
    for name in [b"ABCDEFGHIJKLMNOP", b"9876543210123456", b'x, "y" and ,,"z"']
    for length in range(1, 17)
]


def wide_line(*words):
    """A line of GSI-16: of each word what stands before its content, and the content."""
    return "*" + " ".join(f"{begin}{content:0>16}" for begin, content in words)


def named_station(name, targets):
    """A station of this name with two sets of these targets."""
    yield wide_line(("41....+", "10"), ("42....+", name))
    for number in "12":
        yield wide_line(("41....+", "20"), ("42....+", number))
        for at, target in enumerate(targets):
            for face, zenith in [(0, 10_000_000), (20_000_003, 30_000_000)]:
                direction = str(face + 1_000 * at + 7 * at * int(number))
                yield wide_line(("11....+", target), ("21.102+", direction), ("22.102+", zenith))


# Blocks that open no set, each of 32 bytes with its line feed, so that as many as a file may have
# fill it: stations and ends of sets, each of another name.
NO_SETS = [b"410001+00000010 42....+%08X\n", b"410001+00000030 42....+%08X\n"]
BLOCK = 32


class SizesTest(ProgramTest):
    def file(self, name, content):
        path = self.folder / name
        path.write_bytes(content)
        return path

    def each(self, check, sizes):
        """Makes a check for each size, several at a time."""
        for _ in side_by_side(check, sizes):
            pass

    def check_station(self, size):
        sets, targets = size
        field = self.file(f"{sets} {targets}.gsi", lines(station("S1", sets, targets)))
        sheet = self.file(f"{sets} {targets}.csv", sheet_of(sets, targets))
        self.assertEqual((0, list_of(sets, targets), b""), answer_of(["list", field]), size)
        self.assertEqual((0, sheet_of(sets, targets), b""), answer_of(["means", field, "S1"]), size)
        check = answer_of(["check", field, sheet])
        self.assertEqual((0, accepted(sets, targets), b""), check, size)
        for limit in [[], ["--residual=0"]]:
            directions = answer_of(["directions", *limit, field, "S1"])
            self.assertEqual((0, table_of(targets), b""), directions, size)
            compare = answer_of(["compare", *limit, field, "S1", "/dev/stdin"], table_of(targets))
            self.assertEqual((0, agrees(sets, targets), b""), compare, size)
        self.check_others(field, sets, targets)
        # A set has two targets at least.
        if targets > 1:
            names = [str(n) for n in range(1, targets + 1)]
            self.check_marked("S1", field, sets, names, are_alike=True)

    def check_others(self, field, sets, targets):
        """Each other command, with each kind of rows and of report, has the model's answer."""
        text = table_of(targets)
        table = self.file(f"{sets} {targets}.table", text)
        for command, limit in [*((one, None) for one in OTHERS), *((one, 0) for one in HELD)]:
            case = Case(command, command, field.read_bytes(), text, residual=limit)
            expected = case.expected(field, table)
            self.assertEqual((0, b""), (expected[0], expected[2]), (command, sets, targets))
            self.assertEqual(expected, answer_of(case.args(field, table)), (command, sets, targets))

    def check_marked(self, name, field, sets, targets, are_alike=False):
        """Without its codes the file of sets of these targets gets the same codes again."""
        text = field.read_bytes()
        job = self.file(f"{field.name} {name.encode().hex()}.job", without_codes(text))
        stated = [f"--station={name}", f"--sets={sets}", f"--targets={len(targets)}"]
        mark = answer_of(["mark", *stated, job])
        self.assertEqual((0, text, told(name, sets, targets, are_alike)), mark, field.name)
        job.unlink()

    def test_each_number_of_sets_and_of_targets(self):
        # As the equations of the model say, where they are few.
        few = model.survey_of(lines(station("S1", 3, 4)), model.Limits())[0]
        self.assertEqual(model.least_squares(few), least_squares_of_like_sets(few))
        known = mock.patch.object(model, "least_squares", least_squares_of_like_sets)
        known.start()
        self.addCleanup(known.stop)
        self.each(self.check_station, [(sets, 3) for sets in range(1, 41)])
        self.each(self.check_station, [(2, targets) for targets in range(1, 101)])

    def test_each_number_of_stations(self):
        """The list of so many stations, the means of the last, and a check of them."""
        stations = [b"S%d" % n for n in range(1, model.MOST_STATIONS + 1)]
        fields = [lines(station_of(name.decode(), [7])) + b"\n" for name in stations]
        lists = [listed_of(name, [7]) for name in stations]

        def check(count):
            name, field = stations[count - 1].decode(), self.folder / f"{count}.gsi"
            field.write_bytes(b"".join(fields[:count]))
            listed, sheet = b"".join(lists[:count]), means_of(name.encode(), [7])
            self.assertEqual((0, listed, b""), answer_of(["list", field]), count)
            self.assertEqual((0, sheet, b""), answer_of(["means", field, name]), count)
            path = self.file(f"{count}.csv", sheet)
            expected = 0, accepted(1, 1, name.encode()), b""
            self.assertEqual(expected, answer_of(["check", field, path]), count)
            field.unlink()

        self.each(check, range(1, model.MOST_STATIONS + 1))

    def test_each_number_of_stations_is_marked(self):
        """A set-up line before each of them."""
        names = [f"S{n}" for n in range(1, model.MOST_STATIONS + 1)]
        set_ups = [f"11....+{name:0>8} 88..10+00001543\n".encode() for name in names]
        fields = [lines(station(name, 2, 2)) + b"\n" for name in names]
        notes = [told(name, 2, "12", True).splitlines(keepends=True) for name in names]

        def check(count):
            parts = list(zip(set_ups[:count], fields))
            text = b"".join(set_up + without_codes(field) for set_up, field in parts)
            copy = b"".join(set_up + field for set_up, field in parts)
            *_, last = notes[0]
            said = b"".join([*(line for one in notes[:count] for line in one[:-1]), last])
            path = self.file(f"{count}.job", text)
            self.assertEqual((0, copy, said), answer_of(["mark", "--sets=2", path]), count)
            path.unlink()

        self.each(check, sample(range(1, model.MOST_STATIONS + 1), 37))

    def test_each_number_of_a_set(self):
        """All numbers in one file; and each in a file of its own of forty sets."""
        groups = [SET_NUMBERS[at : at + 40] for at in range(0, len(SET_NUMBERS), 40)]
        stations = [lines(station_of(f"S{n}", group)) for n, group in enumerate(groups)]
        path = self.file("all.gsi", b"\n".join(stations))
        listed = b"".join(listed_of(b"S%d" % n, group) for n, group in enumerate(groups))
        self.assertEqual((0, listed, b""), answer_of(["list", path]))

        def check(group):
            field = self.file(f"{group[0]}.gsi", lines(station_of("S1", group)))
            sheet = self.file(f"{group[0]}.csv", means_of(b"S1", group))
            self.assertEqual((0, listed_of(b"S1", group), b""), answer_of(["list", field]))
            self.assertEqual((0, means_of(b"S1", group), b""), answer_of(["means", field, "S1"]))
            expected = 0, accepted(len(group), 1), b""
            self.assertEqual(expected, answer_of(["check", field, sheet]), group)
            directions = answer_of(["directions", field, "S1"])
            self.assertEqual((0, b"A,0.000000\n", b""), directions, group)

        self.each(check, groups)

    def test_names_of_each_length(self):
        """As the name of a station, of a first target and of a second one."""
        for name in NAMES:
            others = [(name, ["TOWER", "MAST"]), ("S1", [name, "MAST"]), ("S1", ["TOWER", name])]
            for asked, targets in others:
                field = lines(named_station(asked, targets)) + b"\n"
                sheet = model.means(field, asked.encode())[1]
                table = model.directions(field, asked.encode())[1]
                self.check_marked(asked, self.file("field.gsi", field), 2, targets)
                for command in ["words", "list", "means", "check", "directions", "report", "compare"]:
                    second = table if command == "compare" else sheet
                    paths = self.file("field.gsi", field), self.file("second.csv", second)
                    with self.subTest(command, name=name, asked=asked):
                        case = Case(name, command, field, second, asked)
                        expected = case.expected(paths[0])
                        self.assertEqual((0, b""), (expected[0], expected[2]))
                        self.assertEqual(expected, answer_of(case.args(*paths)))

    def answer_within(self, room, args):
        """The answer in so many bytes of address space, or none where nothing could be run."""
        try:
            return answer_of(args, preexec_fn=in_room(room))
        except (OSError, subprocess.SubprocessError):
            return None

    def least_room(self, args, answer):
        """The least address space in which a run has this answer, in steps of a page."""
        page = resource.getpagesize()
        too_small, enough = 0, (1 << 30) // page
        while enough - too_small > 1:
            middle = (too_small + enough) // 2
            if self.answer_within(middle * page, args) == answer:
                enough = middle
            else:
                too_small = middle
        return enough * page

    def runs_without_sets(self):
        """Runs over many blocks that open no set, and over two: the words of each with the path of
        the field file, both files, and the answer."""
        sheet = self.file("sheet.csv", SHEET)
        no_station = 1, b"", b"refused: no station\n"
        for block in NO_SETS:
            full = b"".join(block % n for n in range(model.LONGEST_FILE // BLOCK))
            few = block % 1 + block % 2
            yield lambda path: ["list", path], full, few, (0, b"", b"")
            yield lambda path: ["means", path, "S1"], full, few, no_station
            yield lambda path: ["directions", path, "S1"], full, few, no_station
            yield lambda path: ["check", path, sheet], full, few, no_station

    def test_blocks_that_open_no_set_need_no_memory(self):
        """As many as a file may have do with the address space that two of them need."""
        for words, full, few, answer in self.runs_without_sets():
            many, two = self.file("many.gsi", full), self.file("two.gsi", few)
            with self.subTest(words("")):
                room = self.least_room(words(two), answer)
                self.assertEqual(answer, self.answer_within(room, words(many)))

    def peak_of(self, words, field, answer, out=subprocess.PIPE):
        """The most address space that a run has had when it has read a field file."""
        pipes = {"stdin": subprocess.PIPE, "stdout": out, "stderr": subprocess.PIPE}
        with subprocess.Popen([PROGRAM, *words], **pipes) as run:
            try:
                run.stdin.write(field)
                run.stdin.flush()
                until(lambda: wants_more(run))
                room = peak(run)
                stdout, stderr = run.communicate(timeout=TIME)
            finally:
                run.kill()
        self.assertEqual(answer, (run.returncode, stdout, stderr))
        return room

    def test_blocks_that_open_no_set_take_no_memory(self):
        """With ample memory, as many as a file may have take no more of it than two of them."""
        for words, full, few, answer in self.runs_without_sets():
            words = words("/dev/stdin")
            with self.subTest(words):
                room = self.peak_of(words, few, answer)
                self.assertEqual(room, self.peak_of(words, full, answer))

    def test_words_take_no_memory_that_grows(self):
        """The words of as many blocks as a file may have take no more of it than those of two."""
        words, answer, out = ["words", "/dev/stdin"], (0, None, b""), subprocess.DEVNULL
        for block in NO_SETS:
            full = b"".join(block % n for n in range(model.LONGEST_FILE // BLOCK))
            with self.subTest(block):
                room = self.peak_of(words, block % 1 + block % 2, answer, out)
                self.assertEqual(room, self.peak_of(words, full, answer, out))

    def check_file(self, length):
        """A file of blanks and line feeds after the example has the example's answers."""
        more = (b" " * 37 + b"\n" * 3) * (length // 40) + b"\n" * (length % 40)
        path = self.file(f"{length}.gsi", FIELD + more)
        self.assertEqual(model.listed(FIELD), answer_of(["list", path]), length)
        path.unlink()

    def test_files_of_many_lengths(self):
        self.each(self.check_file, sample(LENGTHS, 19))

    def check_sheet(self, length):
        """A sheet with empty lines has the answer of the one without."""
        more = (b"\r\n\n" * length)[: min(length, model.LONGEST_SHEET - len(SHEET))]
        path = self.file(f"{length}.csv", more + SHEET)
        self.assertEqual(model.check(FIELD, SHEET), answer_of(["check", self.field, path]), length)
        path.unlink()

    def test_sheets_of_many_lengths(self):
        self.field = self.file("field.gsi", FIELD)
        self.each(self.check_sheet, sample(LENGTHS, 19))

    def check_table(self, length):
        """A table with empty lines has the answer of the one without."""
        more = (b"\r\n\n" * length)[: min(length, model.LONGEST_TABLE - len(TABLE))]
        path = self.file(f"{length}.csv", more + TABLE)
        compare = answer_of(["compare", self.field, "S1", path])
        self.assertEqual(model.compared(FIELD, b"S1", TABLE), compare, length)
        path.unlink()

    def test_tables_of_many_lengths(self):
        self.field = self.file("field.gsi", FIELD)
        self.each(self.check_table, sample(LENGTHS, 37))


if __name__ == "__main__":
    unittest.main()
