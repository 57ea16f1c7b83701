"""What the page proposes to leave out, beside examples/prepare.py: by the same rules, of thousands of
jobs; and of files that are refused at a line the same lines, or none where it is doubtful."""

import json
import random
import shutil
import subprocess
import sys
import unittest
from collections import Counter
from typing import NamedTuple

from kinds import REFUSALS
from program import ROOT, SWEEP, TimedTest
from worked import STATION

sys.path[:0] = [str(ROOT / part) for part in ("page", "examples", "tests/cli")]
import prepare  # noqa: E402
import scripts  # noqa: E402
import test_copies  # noqa: E402
from test_copies import P7, sights_of  # noqa: E402

# Of so many jobs a sample is tried where no sweeps are run.
SAMPLE = 1_500

# More than any run takes, in seconds.
TIME = 600

# The rules, of jobs of sights as `sights_of` writes them; and proposals, of files in hexadecimal.
RULES = """sights => {
  const readings = [...sights].map((sight, nth) => (
    { block: nth + 1, target: sight.toUpperCase(), face: sight === sight.toUpperCase() ? 1 : 2 }));
  const closing = closingAmong(readings), isDoubtful = mayBeWhole(closing, readings);
  return [blocksOf(brokenSet(readings)), isDoubtful ? [] : blocksOf(closing)];
}"""
PROPOSALS = """([hex, block, fault, isAnother]) => {
  const found = proposalFor(new Uint8Array(Buffer.from(hex, 'hex')), block, fault, isAnother);
  return found ? [found.what, found.lines.map(({ block }) => block), found.lines.map(({ line }) => line)] : null;
}"""
EACH = "console.log(JSON.stringify(JSON.parse(require('fs').readFileSync(0, 'utf8')).map(%s)))"

MISSING, ELSEWHERE, TWICE = "FaceMissing", "EndsElsewhere", "ReadTwice"
ONE, UNNAMED = "OneTarget", "NoSetUp"


class Case(NamedTuple):
    """Sights of a job, the block and the fault of its refusal, and which sights are left out: those
    with an x."""

    sights: str
    block: int
    fault: str
    out: str


# Capitals are sights in face I and small letters in face II; | sets the instrument up.
BROKEN = [
    Case("ABCcbaABCc", 10, MISSING, "......xxxx"),
    Case("ABCcbaABCcb", 10, MISSING, "......xxxxx"),
    Case("ABCabcABCab", 10, MISSING, "......xxxxx"),
    Case("abcCBAabc", 7, MISSING, "......xxx"),  # sets begin in face II
    Case("CcABCcbaABCc", 9, MISSING, "........xxxx"),  # an orientation comes first
    Case("|ABCcbaABCcbaABCc|ABCcba", 17, MISSING, ".............xxxx......."),
]
CLOSING = [
    Case("ABCAacbaABCAacba", 8, TWICE, "...x...x...x...x"),
    Case("AABCAacba", 9, TWICE, "....x...x"),  # an orientation sight comes first
    Case("ABCAacbaacbaABCA", 8, TWICE, "...x...x...x...x"),  # faces alternate
    Case("AaBbCcAaAaBbCcAa", 9, TWICE, "......xx......xx"),  # target by target
    Case("|ABCAabcaABCAabca|ABCcba", 9, TWICE, "....x...x...x...x......."),
]

# Where nothing is proposed, and why.
DOUBTFUL = [
    ("all sets are whole after an orientation", "CcAaBbCcAaBbCc", 3, "MayBeShifted"),
    ("the last set may have two or four readings", "ABbaAB", 6, MISSING),
    ("a name may be misspelled", "ABCcbaABXcba", 10, MISSING),
    ("or that of its last reading", "ABCcbaABCcbz", 10, MISSING),
    ("a reading within the set may be lost", "aAABCabcACabc", 12, MISSING),
    ("sights before the first set are in the way too", "XABCAacbaABCAacba", 9, TWICE),
    ("what the refusal names closes nothing", "ABCcbacbaABCABCc", 7, TWICE),
    ("half sets of one face are closed here and not there", "ABCAcbaABCAcba", 8, TWICE),
    ("a pair alone stays outside", "ABCcbaABCcbaAa", 13, TWICE),
    ("a target is sighted again at once", "ABbABCcba", 4, TWICE),
    ("an orientation may have been read twice", "AaAaBbCcAa", 9, ONE),
    ("and the last pair be of the only set", "BbBbAaBb", 7, ONE),
    ("or of the last one", "CcCcAaBbCcAaBbCc", 15, ONE),
    ("it is just the line of the refusal", "|ABCcba|BAbab", 13, MISSING),
    ("another fault", "ABCcbaABCc", 10, "Order"),
]


def stations_of(sights):
    """A job of sights; each line that sets the instrument up names another station."""
    first, *others = sights_of(sights).split(b"000000P7 ")
    return first + b"".join(b"000000P%d %s" % (nth, other) for nth, other in enumerate(others, 1))


def answered(of_each, values):
    """What the page's script answers of each value."""
    script = scripts.bare((ROOT / "page" / "repairs.js").read_text()) + "\n" + EACH % of_each
    how = {"input": json.dumps(values), "capture_output": True, "text": True, "timeout": TIME}
    return json.loads(subprocess.run(["node", "-e", script], check=True, **how).stdout)


def proposed(*refused):
    """What the page proposes of each of these field files, with the block and the fault of its refusal
    and whether a name that comes again is another set-up: the rule, the blocks, and their lines."""
    return answered(PROPOSALS, [[field.hex(), block, fault, *another] for field, block, fault, *another in refused])


def blocks_of(field):
    return prepare.blocks_of(field.splitlines(keepends=True))


def cut(field, last, *more):
    """A field file up to a block, and lines after that."""
    return b"".join([*field.splitlines(keepends=True)[:last], *more])


@unittest.skipUnless(shutil.which("node"), "no node is found")
class RepairsTest(TimedTest):
    maxDiff = None

    def test_the_rules_are_those_of_the_script_that_prepares_copies(self):
        jobs = set()
        for before, sets, one in test_copies.clean_jobs():
            whole = before + sets
            jobs |= {whole, whole + "UV", whole + one[0] + one[0].swapcase()}
            jobs |= {whole + one[:end] for end in range(1, len(one))}
        some = random.Random(1)
        for letters in ("ABab", "ABCabc"):
            jobs |= {"".join(some.choices(letters, k=some.randint(1, 12))) for _ in range(SAMPLE)}
        tried = sorted(jobs) if SWEEP else some.sample(sorted(jobs), SAMPLE)
        counts = [0, 0]
        for sights, found in zip(tried, answered(RULES, tried), strict=True):
            rules = (prepare.broken_off, prepare.closing_sights)
            expected = [test_copies.found_by(rule, sights) for rule in rules]
            self.assertEqual([sorted(one) for one in expected], [sorted(one) for one in found], sights)
            counts = [count + bool(one) for count, one in zip(counts, expected)]
        self.assertGreater(min(counts), SAMPLE // 20, counts)

    def test_of_a_job_without_codes_the_same_lines_are_left_out(self):
        rules = {"lastSet": (prepare.broken_off, BROKEN), "closing": (prepare.closing_sights, CLOSING)}
        for what, (rule, cases) in rules.items():
            refused = [(stations_of(case.sights), case.block, case.fault) for case in cases]
            for (sights, _, _, out), (field, *_), found in zip(cases, refused, proposed(*refused)):
                numbers = [nth for nth, mark in enumerate(out, 1) if mark == "x"]
                lines = [field.decode().splitlines()[nth - 1] for nth in numbers]
                with self.subTest(sights):
                    self.assertEqual(numbers, sorted(one.number for one in rule(blocks_of(field))))
                    self.assertEqual([what, numbers, lines], found)

    def test_nothing_is_proposed_where_it_is_doubtful(self):
        refused = [(stations_of(sights), *of_refusal) for _, sights, *of_refusal in DOUBTFUL]
        for (why, *_), found in zip(DOUBTFUL, proposed(*refused)):
            with self.subTest(why):
                self.assertIsNone(found)

    def test_of_a_station_that_is_set_up_again_nothing_is_proposed_before_that_is_stated(self):
        """Its last set may go on there."""
        sights = "|ABCcbaABCc|ABCcba"
        again, other = sights_of(sights), stations_of(sights)
        found = proposed((again, 11, MISSING), (again, 11, MISSING, True), (other, 11, MISSING))
        self.assertEqual([None, [8, 9, 10, 11], [8, 9, 10, 11]], [one and one[1] for one in found])

    def test_sights_before_the_first_set_up_line_are_left_out(self):
        """As those of a resection: not one alone, which the refusal shows, nor what may be sets whose own
        line was lost; and of a job without such a line none."""
        sets = "ABCcbaABCcba"
        jobs = [f"{before}|{sets}" for before in ("ABab", "ABba", "AaBb", "AB", "A", sets, "ABabA")]
        found = proposed(*((sights_of(job), 1, UNNAMED) for job in [*jobs, sets]))
        blocks = [one and one[1] for one in found]
        self.assertEqual([[1, 2, 3, 4]] * 3 + [[1, 2]] + [None] * 4, blocks)
        self.assertEqual({"before"}, {one[0] for one in found if one})

    def test_a_fault_at_which_lines_are_proposed_is_told_by_its_name(self):
        """No other line of a refusal has it."""
        [names] = answered("() => Object.keys(IN_THE_WAY)", [None])
        self.assertLessEqual({MISSING, ELSEWHERE, TWICE, ONE, UNNAMED}, {*names})
        lines = Counter(line.rsplit(": ", 1)[-1] for line in REFUSALS)
        self.assertEqual({1}, {lines[name] for name in names})

    def test_angles_in_other_units_or_without_a_face_are_in_doubt(self):
        field = sights_of("ABCcbaABCc")
        others = ((b"22.102", b"22.104"), (b"30000000", b"40000000"), (b"10000000", b"1000000X"))
        found = proposed(*((field.replace(*other, 1), 10, MISSING) for other in others))
        self.assertEqual([None] * len(others), found)

    def test_the_ends_of_lines_and_blank_lines_are_no_blocks(self):
        field, ends = sights_of("ABCcbaABCc"), (b"\n", b" \n\n", b"\r\r\n", b"\r")
        found = proposed(*((field.replace(b"\r\n", end), 10, MISSING) for end in ends))
        self.assertEqual([[7, 8, 9, 10]] * len(ends), [blocks for _, blocks, _ in found])

    def test_in_a_file_with_codes_the_set_of_the_last_code_20_is_left_out(self):
        """Of station P7, whose set 4 begins at block 38; the refusal stands at what ends it."""
        end, other = P7.splitlines(keepends=True)[-1], b"*410010+0000000000000010 42....+00000000000000Q7\r\n"
        rest = P7.splitlines(keepends=True)[1:]
        refused = [
            (cut(P7, last, *more), last + 1, "EmptySet" if last == 38 else "OneFace")
            for last in range(38, 49) for more in ([], [end], [other, *rest])
        ]
        for (field, *_), found in zip(refused, proposed(*refused)):
            blocks = [one.number for one in prepare.of_set(blocks_of(field), "P7", "4")]
            self.assertEqual(["lastSet", blocks], found[:2])

    def test_in_a_file_with_codes_closing_sights_of_the_station_are_left_out(self):
        code, opened = STATION.splitlines(keepends=True), sights_of("ABAaba")
        field = b"".join([code[0], code[1], opened, code[6], opened, code[11]])
        blocks = [one.number for one in prepare.closing_sights(blocks_of(field))]
        [found] = proposed((field, 5, "FaceTwice"))
        self.assertEqual(["closing", blocks], found[:2])

    def test_in_a_file_with_codes_nothing_is_proposed_where_it_is_doubtful(self):
        other = P7.splitlines(keepends=True)
        doubtful = [
            ("the set is not the last one", cut(P7, 25, *other[26:]), 26, "OneFace"),
            ("it is the only one", cut(P7, 14, other[-1]), 15, "OneFace"),
            ("a name may be misspelled", cut(P7, 42, other[42].replace(b"0CHURCH", b"00CHRCH"), *other[43:45]), 46, "OneFace"),
            ("the station comes again", cut(P7, 46, *other), 47, "OneFace"),
            ("no code 10 is before it", b"".join(other[1:46]), 46, "OneFace"),
            ("another fault", cut(P7, 46), 47, "SetNumber"),
        ]
        found = proposed(*(refused for _, *refused in doubtful))
        self.assertEqual([None] * len(doubtful), found)


if __name__ == "__main__":
    unittest.main()
