"""examples/prepare.py: each copy beside what it should be, what is refused, and the command that shows
that nothing else was changed. Of thousands of jobs, with all kinds of sights before their sets, no
rule takes a reading of a whole set, and of a broken one all or none."""

import itertools
import re
import subprocess
import sys
import unittest
from typing import NamedTuple

from pages import environment_of, tools
from program import ROOT, ProgramTest, answer_of
from worked import STATION, edited

EXAMPLES = ROOT / "examples"

sys.path.insert(0, str(EXAMPLES))
import prepare  # noqa: E402

P7 = (EXAMPLES / "station_p7.gsi").read_bytes()

TIME = 60


def without_codes(text):
    """The lines of a field file but those of codes."""
    lines = text.splitlines(keepends=True)
    return b"".join(line for line in lines if not line.lstrip(b"*").startswith(b"41"))


def lines_of(*readings):
    """A job without codes: each reading is a target, its face and its direction."""
    text = b""
    for target, face, direction in readings:
        zenith = {1: 10_000_000, 2: 30_000_000}[face]
        text += f"110001+{target:0>8} 21.102+{direction:08} 22.102+{zenith:08}\r\n".encode()
    return text


def job(faces, targets):
    """A job in which these faces and targets follow each other; directions are all in face."""
    at = {1: 0, 2: 20_000_000}
    pairs = zip(map(int, faces), targets, strict=True)
    return lines_of(*((target, face, 1_000 * ord(target) + at[face]) for face, target in pairs))


def sights_of(text):
    """A job in which capitals are sights in face I and small letters in face II, and | a line that
    sets the instrument up."""
    lines = b""
    for sight in text:
        face = 1 if sight.isupper() else 2
        read = lines_of((sight.upper(), face, 1_000 * ord(sight.upper()) + (face - 1) * 20_000_000))
        lines += b"110001+000000P7 88..10+00001543\r\n" if sight == "|" else read
    return lines


def pairs_of(targets):
    """Sights that read target by target."""
    return "".join(target + target.lower() for target in targets)


def turning(targets):
    """The same, where the face is not changed from one target to the next."""
    return "".join(pairs_of(one)[:: (-1) ** nth] for nth, one in enumerate(targets))


# Each way in which a set is read.
WAYS = {
    "there and back": lambda targets: targets + targets[::-1].lower(),
    "twice from the first": lambda targets: targets + targets.lower(),
    "target by target": pairs_of,
    "target by target, turning": turning,
}


def sights_before(targets):
    """Sights before the sets, three at most: to their targets and to another, X, in one face or in
    both; or more to different targets, the first of which may be sighted again at the end."""
    for one in [*targets, "X"]:
        yield from (one, one + one.lower(), one.lower() + one)
        for other in [*targets, "X"]:
            pair = other + other.lower()
            yield from (one + other, one + pair, pair + one, one + other + one)
            yield from (other + other + pair, one + one + pair, pair + one + one)
            yield from (one + one.lower() + pair, one.lower() + one + pair)
    yield from (pairs_of("BXB"), pairs_of("XBX"), "BXAB", "BAaXB", pairs_of("BAXB"))
    yield from (targets + "XY", pairs_of(targets), "XY" + pairs_of(targets[-1]))


def clean_jobs():
    """Jobs of whole sets: of each what stands before, its sets, and the targets and the way of one.
    In one of more sets the second target may be missing."""
    ways = itertools.product([("AB", 3), ("ABC", 2), ("ABC", 1), ("ABCD", 2)], WAYS.values())
    for (targets, count), way in ways:
        for before in ["", *sights_before(targets)]:
            yield before, way(targets) * count, way(targets)
            for gap in range(count) if count > 1 and len(targets) > 2 else ():
                sets = [way(targets) for _ in range(count)]
                sets[gap] = way(targets[0] + targets[2:])
                yield before, "".join(sets), way(targets)


class Sight(NamedTuple):
    """A block that is a reading, as `sights_of` writes it."""

    number: int
    letter: str

    def target(self):
        return self.letter.upper()

    def face(self):
        return 1 if self.letter.isupper() else 2

    def is_reading(self):
        return True

    def sets_up(self):
        return False

    def code(self):
        return None


def found_by(rule, sights):
    """The blocks that a rule leaves out of a job of these sights; none where it refuses."""
    try:
        return [sight.number for sight in rule([*itertools.starmap(Sight, enumerate(sights, 1))])]
    except prepare.Refused:
        return []


class PrepareTest(ProgramTest):
    def setUp(self):
        super().setUp()
        self.environment = environment_of(tools(self.folder / "bin"))
        self.field, self.copy = self.folder / "field.gsi", self.folder / "a copy.gsi"

    def run_in_folder(self, command):
        run = {"cwd": self.folder, "env": self.environment, "timeout": TIME}
        return subprocess.run(command, capture_output=True, text=True, **run)

    def run_script(self, *args):
        return self.run_in_folder([sys.executable, EXAMPLES / "prepare.py", *args])

    def copied(self, field, *args):
        """What the script answers; where it made a copy, the command that it prints is run."""
        self.field.write_bytes(field)
        self.copy.unlink(missing_ok=True)
        done = self.run_script(self.field.name, self.copy.name, *args)
        self.assertEqual(field, self.field.read_bytes())
        self.assertEqual(done.returncode == 0, self.copy.exists(), done.stderr)
        if done.returncode == 0:
            self.shows = done.stdout.splitlines()[-1].strip()
            self.assertEqual(b"", self.shown())
        return done.returncode, done.stdout.split(";")[0], done.stderr

    def shown(self):
        """What the printed command shows of the copy."""
        run = {"cwd": self.folder, "env": self.environment, "timeout": TIME}
        done = subprocess.run(["bash", "-c", self.shows], capture_output=True, **run)
        return done.stdout + done.stderr

    def check_changes_are_shown(self):
        """One byte changed, a line more and a line less, put in or renamed too, are each shown."""
        right = self.copy.read_bytes()
        lines = right.splitlines(keepends=True)
        at = next(place for place, line in enumerate(lines) if b" 22." in line)
        new = [place for place, line in enumerate(lines) if b"> " + line in self.log]
        for changed in [
            right.replace(b" 22.", b" 23.", 1),
            b"".join([*lines[:at], lines[at], *lines[at:]]),
            *(b"".join([*lines[:place], *lines[place + 1 :]]) for place in [at, *new]),
        ]:
            self.copy.write_bytes(changed)
            self.assertNotEqual(b"", self.shown())
        self.copy.write_bytes(right)

    def prepared(self, field, *args, why="a reason"):
        log = self.folder / f"{self.copy.name}.log"
        log.unlink(missing_ok=True)
        answer = self.copied(field, f"--why={why}", *args)
        self.log = log.read_bytes() if log.exists() else None
        self.assertEqual(answer[0] == 0, log.exists())
        return answer

    def left(self, field, args):
        """The blocks that are left out, after a look at the copy, the log and what is printed."""
        lines = field.splitlines(keepends=True)
        self.assertEqual(0, self.prepared(field, *args)[0], args)
        numbers = [int(n) for n in self.numbers_in_log()]
        kept = [line for number, line in enumerate(lines, 1) if number not in numbers]
        self.assertEqual(b"".join(kept), self.copy.read_bytes())
        self.assertIn(b"\nwhy: a reason\n", self.log)
        for number in numbers:
            self.assertIn(b"block %d:\n< %s" % (number, lines[number - 1]), self.log)
        return numbers

    def numbers_in_log(self):
        return re.findall(rb"^block (\d+):$", self.log, re.MULTILINE)

    def test_blocks_are_left_out_by_number_and_by_rule(self):
        opened = job("111222", "ABAABA")
        code = STATION.splitlines(keepends=True)
        closing = code[0] + code[1] + opened + code[6] + job("1122", "ABBA") + code[11]
        for field, args, numbers in [
            (P7, ["--blocks", "2"], [2]),
            (P7, ["--blocks", "2", "36-38", "37", "51"], [2, 36, 37, 38, 51]),
            (P7, ["--set", "P7", "3"], list(range(27, 38))),
            (P7, ["--set", "P7", "4"], list(range(38, 51))),
            (P7, ["--set", "P7", "4", "--set", "P7", "1"], [*range(3, 16), *range(38, 51)]),
            (STATION, ["--set", "S1", "1", "--blocks", "12"], [2, 3, 4, 5, 6, 12]),
            (closing, ["--closing"], [5, 8]),
            (P7, ["--blocks", "50-"], [50, 51]),
            (P7, ["--blocks", "36,40-42", "50-"], [36, 40, 41, 42, 50, 51]),
            (P7, ["--without-codes"], [1, 3, 16, 27, 38, 51]),
        ]:
            with self.subTest(args):
                self.assertEqual(numbers, self.left(field, args))
        self.assertEqual(0, answer_of(["list", self.copy])[0])  # of the closing sights
        self.check_changes_are_shown()

    def test_closing_sights_are_found_in_a_job_without_codes(self):
        """Capitals are sights in face I and small letters in face II; | sets the instrument up."""
        for sights, closing in [
            ("ABCAacbaABCAacba", "...x...x...x...x"),
            ("ABCAabca|ABAaba", "...x...x...x..x"),
            ("AABCAacba", "....x...x"),  # an orientation sight comes first
            ("ABCAacbaacbaABCA", "...x...x...x...x"),  # faces alternate
            ("AaBbCcAaAaBbCcAa", "......xx......xx"),  # target by target
            ("ABCcba|BAbab", "...........x"),
            ("ABCcbaABCcbaAa", "............xx"),  # a pair after sets that were read by faces
            ("XABCabcABCabcAa", ".............xx"),
        ]:
            with self.subTest(sights):
                field = sights_of(sights)
                numbers = [n for n, mark in enumerate(closing, 1) if mark == "x"]
                self.assertEqual(numbers, self.left(field, ["--closing"]))
        of_none = ["ABba", "AaBbAaBb", "ABCcbaABCcba", "AaAaBb", "A", "AA", "ABCcbaXx", "ABbaA"]
        for sights in of_none:
            status, _, said = self.prepared(sights_of(sights), "--closing")
            self.assertEqual((1, "prepare.py: no set has a closing sight\n"), (status, said))
        # An orientation in both faces to the last target, and then whole sets.
        # Or one to each of two; or an orientation sight, and a check sight at the end.
        for sights, first in [
            ("CcAaBbCcAaBbCc", 3),
            ("AaBbAa", 3),
            ("AaAaBbCcAa", 5),  # or one that was read twice
            ("CcCcAaBbCcAaBbCc", 5),
            ("DdCcAaBbCcDdAaBbCcDd", 5),
            ("CABCcbaA", 2),
        ]:
            status, _, answer = self.prepared(sights_of(sights), "--closing")
            said = "prepare.py: all sets are whole, and no sight closes one, if the first begins at "
            said += f"block {first}: "
            self.assertEqual((1, said), (status, answer[: len(said)]))

    def test_a_last_set_that_was_broken_off_is_found_in_a_job_without_codes(self):
        """Capitals are sights in face I and small letters in face II; | sets the instrument up."""
        for sights, broken in [
            ("ABCcbaABC", "......xxx"),
            ("ABCcbaABCc", "......xxxx"),
            ("ABCabcABCab", "......xxxxx"),
            ("ABCcbacbaABCABCc", "............xxxx"),  # faces alternate
            ("abcCBAabc", "......xxx"),  # sets begin in face II
            ("ABCcbaABba|ABCcbaAB", ".................xx"),  # a gap; the second station is broken off
            ("ABCcbaAB|ABCcbaAB", "......xx.......xx"),
            ("AABCcbaABC", ".......xxx"),  # an orientation sight comes first
            ("CcABCcbaABC", "........xxx"),
            ("ABCcbaABXY", "......xx.."),  # detail points stay
            ("ABCcbaABCcbaA", "............x"),
        ]:
            with self.subTest(sights):
                numbers = [n for n, mark in enumerate(broken, 1) if mark == "x"]
                self.assertEqual(numbers, self.left(sights_of(sights), ["--broken-off"]))
        both = self.left(sights_of("ABCAacbaABCAacbaABCA"), ["--closing", "--broken-off"])
        self.assertEqual([4, 8, 12, 16, 17, 18, 19, 20], both)
        none = "prepare.py: no last set was broken off, as far as the readings show it\n"
        two_at_least = ["ABCcbaABABCcba", "ABCcbaABCcbaXYAZA"]  # begun again; checks among details
        others = ["ABCcba", "AABCcbaABCcba", "ABCcbaABba", "AaBbAaBbXY", "AaAaBb", "ABC", "A", ""]
        for sights in [*two_at_least, *others]:
            status, _, said = self.prepared(sights_of(sights), "--broken-off")
            self.assertEqual((1, none), (status, said), sights)
        said = "prepare.py: the file has codes: leave the set out by --set\n"
        self.assertEqual((1, "", said), self.prepared(P7, "--broken-off"))
        # An orientation in both faces to the last target, and then whole sets.
        of_two = ["XxCcAaBbCcAaBbCc", "XYCcAaBbCcAaBbCc", "XYAaBbCcAaBb", "AaBbCcAaBb"]
        for sights in ["CcAaBbCcAaBbCc", *of_two]:
            whole = self.prepared(sights_of(sights), "--broken-off")
            self.assertEqual((1, "", none), whole)
        # The first sights may be those of a set or an orientation before it.
        for sights, either in [
            ("AaBbCcAaBbCcAaB", "block 15 or blocks 11-15 or blocks 13-15"),
            ("XYAaBbCcAaBbCcAaB", "block 17 or blocks 13-17 or blocks 15-17"),
            ("ABbaAB", "block 6 or blocks 5-6"),
        ]:
            said = f"prepare.py: the last set that was broken off may have {either}: leave out by"
            status, _, answer = self.prepared(sights_of(sights), "--broken-off")
            self.assertEqual((1, said), (status, answer[: len(said)]))

    def test_no_reading_of_a_whole_set_is_left_out_by_a_rule(self):
        """Whatever stands before the sets, and whether detail points follow them or not."""
        for before, sets, _ in clean_jobs():
            for sights in (before + sets, before + sets + "UV"):
                for rule in (prepare.broken_off, prepare.closing_sights):
                    self.assertEqual([], found_by(rule, sights), (rule, sights))

    def test_of_a_set_that_was_broken_off_all_is_left_out_or_nothing(self):
        """Whatever stands before the sets, and wherever the last set ends."""
        counts = dict.fromkeys((True, False), 0)
        for before, sets, one in clean_jobs():
            whole = before + sets
            for end in range(1, len(one)):
                found = found_by(prepare.broken_off, whole + one[:end])
                numbers = list(range(len(whole) + 1, len(whole) + end + 1))
                self.assertIn(found, ([], numbers), whole + one[:end])
                counts[bool(found)] += 1
        self.assertGreater(2 * counts[True], 3 * counts[False], counts)

    def changed(self, field, args, expected):
        """Compares the copy, and looks at the log: each line as it was and as it is."""
        self.assertEqual(0, self.prepared(field, *args)[0], args)
        self.assertEqual(expected, self.copy.read_bytes())
        pairs = zip(field.split(b"\n"), expected.split(b"\n"), strict=True)
        for number, (was, now) in enumerate(pairs, 1):
            was_said = b"block %d:\n< %s\n" % (number, was) in self.log
            now_said = b"block %d in the copy:\n> %s\n" % (number, now) in self.log
            self.assertEqual((was != now, was != now and now != b""), (was_said, now_said), number)

    def test_stated_blocks_are_renamed(self):
        lower = edited(job("1122", "AKKA"), (b"0000000K 21.102+20", b"0000000k 21.102+20"))
        self.changed(lower, ["--rename", "3", "K"], job("1122", "AKKA"))
        good = job("1122", "ABBA")
        self.changed(good, ["--rename", "2,3", "C"], good.replace(b"0000000B", b"0000000C"))
        of_a = edited(good, (b"0000000A", b"00000P 1"))
        self.changed(good, ["--rename", "1,4", "P 1"], of_a)
        of_both = edited(of_a, (b"0000000B", b"00000P 1"))
        self.changed(good, ["--rename", "1-4", "P 1"], of_both)
        self.changed(lower, ["--capitals"], job("1122", "AKKA"))
        of_code = edited(P7, (b"42....+00000000000000P7", b"42....+00000000000tabor"))
        small = of_code.replace(b"TOWER", b"Tower").replace(b"CHURCH", b"church")
        self.changed(small, ["--capitals"], of_code)
        named = of_code.replace(b"TOWER", b"0Mill", 1)
        self.changed(small, ["--rename", "2", "Mill", "--capitals"], named)
        other = edited(P7, (b"42....+00000000000000P7", b"42....+00000000000TABOR"))
        self.changed(P7, ["--rename", "1", "TABOR"], other)
        other = edited(P7, (b"42....+0000000000000002", b"42....+0000000000000012"))
        self.changed(P7, ["--rename", "16", "12"], other)
        unnamed = edited(P7, (b" 42....+0000000000000002", b""))
        self.changed(unnamed, ["--rename", "16", "2"], P7)
        self.check_changes_are_shown()
        both = ["--rename", "4", "X", "--blocks", "3", "5-6", "--rename", "7", "Y"]
        self.assertEqual(0, self.prepared(P7, *both)[0])
        said = b"without: block 3, blocks 5-6; with: block 4 named X, block 7 named Y"
        head = b"a copy.gsi is field.gsi " + said + b"\nwhy: a reason\nblock 3:\n"
        self.assertTrue(self.log.startswith(head), self.log)

    def test_codes_are_put_in(self):
        """The lines are those of `mark`, in the width and with the end of the lines beside them."""
        station = lines_of(("A", 1, 0), ("A", 2, 20_000_000), ("B", 1, 5), ("B", 2, 20_000_005))
        begun = b"41....+00000010 42....+0000000%c\r\n41....+00000020 42....+00000001\r\n"
        end = b"41....+00000030\r\n"
        field = station + station
        first, last = begun % b"S" + station, begun % b"T" + station
        for args, expected in [
            (["--codes", "S", "1", "4"], first + end + station),
            (["--codes", "T", "5", "8"], station + last),
            (["--codes", "T", "5", "8", "--codes", "S", "1", "4"], first + end + last),
        ]:
            with self.subTest(args):
                self.assertEqual(0, self.prepared(field, *args)[0])
                self.assertEqual(expected, self.copy.read_bytes())
                self.assertEqual(0, answer_of(["list", self.copy])[0])
                self.check_changes_are_shown()
        both = b"\nbefore block 5:\n> 41....+00000030\r\nbefore block 5:\n> 41....+00000010"
        self.assertIn(both, self.log)
        two = ["--codes", "S", "1,5", "8"]
        self.assertEqual((0, "3 blocks are put in", ""), self.prepared(field, *two))
        listed = b"station S: 2 sets, 2 targets, 4 directions\n"
        self.assertTrue(answer_of(["list", self.copy])[1].startswith(listed))
        both = [*two, "--blocks", "3-4", "--rename", "1,2", "C"]
        counts = "2 blocks are left out, 2 blocks are changed, 3 blocks are put in"
        self.assertEqual((0, counts, ""), self.prepared(field, *both))
        self.check_changes_are_shown()
        other = ["--without-codes", "--codes", "P7", "4,17,28,39", "50"]
        self.assertEqual(0, self.prepared(P7, *other)[0])
        self.assertEqual(answer_of(["list", self.field]), answer_of(["list", self.copy]))
        for args, said in [
            (["S", "1,9", "10"], "no block 9: the file has 8"),
            (["S", "1", "9"], "no block 9: the file has 8"),
            (["S", "1,5", "4"], "the blocks of S don't ascend"),
            (["S", "5,1", "8"], "the blocks of S don't ascend"),
            (["STATION 7", "1", "4"], "block 1: the name STATION 7 is too long for a line of"),
            (["S", "1", "4", "--codes", "T", "3", "8"], "the blocks of T don't ascend, or lie"),
        ]:
            status, _, answer = self.prepared(field, "--codes", *args)
            self.assertEqual(1, status)
            self.assertTrue(answer.startswith(f"prepare.py: {said}"), answer)
        set_up = sights_of("ABba|ABba")
        said = "prepare.py: block 5 sets the instrument up, among the sets of S\n"
        self.assertEqual((1, "", said), self.prepared(set_up, "--codes", "S", "1,6", "9"))
        self.assertEqual(0, self.prepared(set_up, "--codes", "S", "1,6", "9", "--blocks", "5")[0])
        said = "prepare.py: block 3 is no reading: no set begins or ends there\n"
        self.assertEqual((1, "", said), self.prepared(P7, "--codes", "P7", "3", "15"))
        for values in ["S 1", "S x 4", "S 1-2 4", "S 1 4-", "0S 1 4"]:
            self.assertEqual(2, self.prepared(field, "--codes", *values.split())[0], values)

    def test_a_file_that_is_refused_is_copied(self):
        """A title, a byte order mark, letters with accents, tabs, a final 1A and a line cut off."""
        good = job("1122", "ABBA")
        cut = good + good[:30]
        mark = b"\xef\xbb\xbf"
        latin, utf = edited(good, (b"A 21", b"\xc4 21")), edited(good, (b"A 21", b"\xc3\x84 21"))
        sharp = edited(good, (b"0A 21", b"\xdfA 21"))
        narrow = edited(good, (b"00A 21", b"0\xc3\x84 21"))  # eight bytes, and so seven letters
        twice, last = good.replace(b"\r\n", b"\r\r\n"), b"110005+0000000B\r\r\n"
        for field, args, expected in [
            (b"Job 17\r\n" + good, ["--blocks", "1"], good),
            (cut, ["--blocks", "5"], good),
            (good + b"\x1a", ["--blocks", "5"], good),
            (good + b"\x1a", ["--plain"], good),
            (good[:-2] + b"\x1a\r\n", ["--plain"], good),
            (mark + good, ["--plain"], good),
            (latin, ["--plain"], good),
            (utf, ["--plain"], good),
            (mark + utf + b"\x1a", ["--plain"], good),
            (narrow, ["--plain"], good),
            (twice + last, ["--blocks", "5"], twice),
            (utf + cut[len(good) :], ["--plain"], cut),  # what was cut off isn't filled up
            (good + b"\x1a" + mark + good + b"\x1a\x1a", ["--plain"], good + good),
            (utf, ["--rename", "1,4", "A"], good),
            (latin, ["--rename", "1,4", "A"], good),
            (sharp, ["--plain"], good.replace(b"0A 21", b"sA 21")),
            (good.replace(b" 22.", b"\t22."), ["--plain"], good),
        ]:
            with self.subTest(field[:40], args=args):
                self.assertEqual(0, self.prepared(field, *args)[0])
                self.assertEqual(expected, self.copy.read_bytes())
        for byte in [b"\x00", b"\x1a", b"\xd7"]:
            status, _, said = self.prepared(good.replace(b"A 21", byte + b" 21"), "--plain")
            self.assertEqual(1, status)
            self.assertIn("block 1: no plain letter stands for ", said)
        for form in ["utf-16", "utf-16-le", "utf-16-be"]:
            status, _, said = self.prepared(good.decode().encode(form), "--plain")
            self.assertEqual(1, status)
            self.assertIn("field.gsi is in UTF-16: save it as plain text", said)

    def test_the_log_says_what_and_why(self):
        for args, counts in [
            (["--blocks", "2"], "1 block is left out"),
            (["--rename", "1", "P8"], "1 block is changed"),
            (["--blocks", "2", "--rename", "1,4", "X"], "1 block is left out, 2 blocks are changed"),
        ]:
            self.assertEqual((0, counts, ""), self.prepared(P7, *args))
        said = self.prepared(P7, "--blocks", "2", "4-5", why="MAST was moved")
        self.assertEqual((0, "3 blocks are left out", ""), said)
        lines = P7.splitlines(keepends=True)
        log = b"a copy.gsi is field.gsi without: block 2, blocks 4-5\nwhy: MAST was moved\n"
        for number in (2, 4, 5):
            log += b"block %d:\n< %s" % (number, lines[number - 1])
        self.assertEqual(log, self.log)

    def test_signs_of_a_name_that_control_a_terminal_are_shown_as_escapes(self):
        """In the log, in what is printed and in errors; the printed command runs all the same."""
        self.copy = self.folder / "a\x1b[8m\n'b"
        self.assertEqual(0, self.prepared(P7, "--blocks", "2")[0])
        self.assertIn(r" field.gsi $'a\x1b[8m\x0a\x27b' | ", self.shows)
        self.assertTrue(self.log.startswith(rb"a\x1b[8m\x0a\x27b is field.gsi without: "), self.log)
        self.check_changes_are_shown()
        status, _, said = self.copied(P7, "--why=a reason", "--blocks", "2")
        self.assertEqual((1, "prepare.py: a\\x1b[8m\\x0a\\x27b.log is there already\n"), (status, said))

    def test_a_copy_is_a_new_file(self):
        self.field.write_bytes(P7)
        (self.folder / "none.gsi.log").write_bytes(b"")
        for field, copy, said in [
            ("field.gsi", "field.gsi", "field.gsi is there already"),
            ("field.gsi", "no/copy.gsi", "cannot write no/copy.gsi.log: No such file or directory"),
            ("field.gsi", "none.gsi", "none.gsi.log is there already"),
            ("none.gsi", "copy.gsi", "cannot read none.gsi: No such file or directory"),
        ]:
            done = self.run_script(field, copy, "--blocks", "2", "--why", "a reason")
            self.assertEqual((1, ""), (done.returncode, done.stdout))
            self.assertEqual(f"prepare.py: {said}\n", done.stderr)

    def test_what_is_not_there_is_refused_with_a_reason(self):
        for args, said in [
            (["--blocks", "52"], "no block 52: the file has 51"),
            (["--blocks", "5-4"], "no blocks 5-4"),
            (["--set", "P7", "5"], "station P7 has no set 5"),
            (["--set", "P8", "1"], "station P8 has no set 1"),
            (["--closing"], "no set has a closing sight"),
            (["--broken-off"], "the file has codes: leave the set out by --set"),
            (["--rename", "1", "x" * 17], "block 1: the name " + "x" * 17 + " is too long"),
            (["--rename", "52", "X", "--blocks", "1"], "no block 52"),
            (["--rename", "52", "X"], "no block 52: the file has 51"),
            (["--rename", "4", "X", "--set", "P7", "1"], "block 4 is both left out and named X"),
            (["--rename", "1", "P7"], "nothing would be changed"),
            (["--plain"], "nothing would be changed"),
        ]:
            status, _, answer = self.prepared(P7, *args)
            self.assertEqual(1, status)
            self.assertTrue(answer.startswith(f"prepare.py: {said}"), answer)
        twice = edited(P7, (b"42....+0000000000000002", b"42....+0000000000000001"))
        said = "prepare.py: station P7 has 2 sets 1\n"
        self.assertEqual((1, "", said), self.prepared(twice, "--set", "P7", "1"))
        self.assertEqual(1, self.prepared(P7.replace(b"\n", b"\r"), "--blocks", "2")[0])
        no_codes = without_codes(P7)
        said = "prepare.py: no block has the code 10, 20 or 30\n"
        self.assertEqual((1, "", said), self.prepared(no_codes, "--without-codes"))
        degrees = edited(job("1122", "ABBA"), (b"22.102+1", b"22.104+1"))
        said = "prepare.py: block 1: no zenith angle in gon with five decimals\n"
        self.assertEqual((1, "", said), self.prepared(degrees, "--closing"))
        titled = b"Job 17\n" + P7
        said = "prepare.py: block 1 has no name: neither word 11 nor word 41 first\n"
        self.assertEqual((1, "", said), self.prepared(titled, "--rename", "1", "X"))
        names = [["--rename", "1", name] for name in ["", "0P", "P\u00e4"]]
        of_blocks = [["--blocks", "x"], ["--blocks", "0"], ["--blocks"], ["--rename", "1"]]
        for args in [[], *of_blocks, ["--set", "P7"], ["--rename", "x", "X"], *names]:
            self.assertEqual(2, self.prepared(P7, *args)[0], args)
        for why in ["", " ", "a\nb"]:
            self.assertEqual(2, self.prepared(P7, "--blocks", "2", why=why)[0])


if __name__ == "__main__":
    unittest.main()
