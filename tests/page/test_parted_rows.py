"""How the page parts what a call hands out: rows that the core writes, as Python's csv has them; the
records that it reads of a file; the stations of a list; by what a table is parted; of a table the
names by which its station is found, and the decimals that it states."""

import csv
import io
import json
import random
import shutil
import subprocess
import sys
import unittest

import model
import records
from program import ROOT, TimedTest

sys.path[:0] = [str(ROOT / "page")]
import scripts  # noqa: E402

# More than any run takes, in seconds.
TIME = 600

# What fields have: letters of names and numbers, and what has a row quote them.
LETTERS = 'P7 .-",";\u00e4'

TITLES = ["station", "set", "target", "direction", "2c", "2i"]

# What the scripts are asked, of each value.
ROWS = "text => rowsIn(text)"
RECORDS_IN = "hex => recordsIn(new Uint8Array(Buffer.from(hex, 'hex')))"
SEPARATORS = "([kind, text]) => tellingPartOf({ kind, bytes: new TextEncoder().encode(text) }).separators"
STATIONS = (
    "text => stationsOf(text).map(one =>"
    " [one.name, one.sets, one.directions, one.targetNames, pairsOf(one).length])"
)
TOLD = (
    "([rows, columns]) => [[...namesIn({ rows }, 1)], [...namesIn({ rows })],"
    " [...decimalsIn({ rows }, columns && { names: columns[0], directions: columns[1] })]]"
)
EACH = "console.log(JSON.stringify(JSON.parse(require('fs').readFileSync(0, 'utf8')).map(%s)))"


def answered(of_each, values):
    """What the page's scripts answer of each value."""
    script = scripts.joined(["numbers.js", "rows.js", "files.js"]) + EACH % of_each
    how = {"input": json.dumps(values), "capture_output": True, "text": True, "timeout": TIME}
    return json.loads(subprocess.run(["node", "-e", script], check=True, **how).stdout)


def written(rows):
    """Rows as the core writes them."""
    text = io.StringIO()
    csv.writer(text, lineterminator="\n").writerows(rows)
    return text.getvalue()


def fields(chance, count):
    return ["".join(chance.choices(LETTERS, k=chance.randint(0, 5))) for _ in range(count)]


@unittest.skipUnless(shutil.which("node"), "no node is found")
class PartedRowsTest(TimedTest):
    maxDiff = None

    def test_rows_have_the_fields_that_were_written(self):
        chance = random.Random(3)
        tables = [[fields(chance, len(TITLES)) for _ in range(chance.randint(0, 4))] for _ in range(200)]
        texts = [written([TITLES, *rows]) for rows in tables]
        self.assertGreater(sum('""' in text for text in texts), 20)
        self.assertEqual([[dict(zip(TITLES, row)) for row in rows] for rows in tables], answered(ROWS, texts))

    def test_records_have_the_fields_that_the_core_read(self):
        # (what is no text is shown as a sign, and a mark of byte order isn't)
        texts = [list(model.records_of(text, bytes([by]))) for text in records.TEXTS for by in records.SEPARATORS]
        expected = [[[field.decode("utf-8-sig", "replace") for field in one] for one in text] for text in texts]
        self.assertEqual(expected, answered(RECORDS_IN, [records.handed_out(text).hex() for text in texts]))

    def test_a_list_has_its_stations_whatever_they_are_called(self):
        rows = [(name, str(nth), to, "0.000000", "0.00", "0.00")
                for name in ("P7", 'P "7', "P,7") for nth in (1, 2) for to in ("A", 'B"', ",")]
        expected = [[name, 2, 6, ["A", 'B"', ","], 6] for name in ("P7", 'P "7', "P,7")]
        self.assertEqual([expected, []], answered(STATIONS, [written([TITLES, *rows]), written([TITLES])]))

    def test_a_table_is_parted_by_the_separators_alone_that_it_has(self):
        """By another one each row would be a single field. A sheet has the one after its first word."""
        beyond = "A" * 2**20
        cases = [
            ("table", "A;1,5\n", [",", ";"]),
            ("table", "A\t1.5 gon\n", ["\t", " "]),
            ("table", "1, A;1\tB\n", [",", ";", "\t", " "]),
            ("table", "A|1.5\n", []),
            ("table", f";{beyond}\t", [";"]),
            ("sheet", "sheet;1;P 7,1\n", [";"]),
            ("sheet", '"sheet"\t1\tP7\n', ["\t"]),
        ]
        expected = [separators for *_, separators in cases]
        self.assertEqual(expected, answered(SEPARATORS, [[kind, text] for kind, text, _ in cases]))

    def test_a_table_tells_its_names_and_its_decimals(self):
        rows = [["Ziel", "Hz"], [" A ", "0.5000"], ["B", " ", "1,25 gon"], ["A", "7"], ["C"], []]
        names = [["Ziel", "A", "B", "C"], ["Ziel", "Hz", "A", "0.5000", "B", "", "1,25 gon", "7", "C"]]
        numbered = [["1", "A", "0.5000"], ["2", "B", "10"]]
        expected = [
            [*names, [["A", 4], ["B", 2]]],
            [["1", "2"], ["1", "A", "0.5000", "2", "B", "10"], [["A", 4], ["B", 0]]],
        ]
        self.assertEqual(expected, answered(TOLD, [[rows, None], [numbered, [2, 3]]]))


if __name__ == "__main__":
    unittest.main()
