"""`make bench`: its marks, what it says of them and of a machine that isn't idle, and the page that it
makes of its tables."""

import io
import itertools
import re
import sys
import unittest
from unittest import mock

from program import ROOT, ProgramTest

sys.path.insert(0, str(ROOT / "bench"))

import bench
import measure
from shapes import Shape

# A program that answers each command alike, and one that does not.
SAME = "#!/bin/sh\necho of $1\n"
OTHER = "#!/bin/sh\necho of other $1\n"

# The heads of a table that has what the page shows.
HEADS = ["file", "command", *bench.SHORT_HEADS, "of tuned"]


class BenchTest(ProgramTest):
    def program(self, name, text=SAME):
        path = self.folder / name
        path.write_text(text)
        path.chmod(0o755)
        return path

    def bench(self, *names):
        """A bench of programs of these names, which all answer alike."""
        return bench.Bench({name: self.program(name) for name in names}, self.folder, turns=1)

    def said_of(self, found, others):
        """What is said at the end, and the status."""
        with mock.patch.object(sys, "stdout", io.StringIO()) as said:
            status = bench.say_at_end(found, others)
        return said.getvalue(), status

    def test_a_mark_is_kept_up_to_its_limit(self):
        for found, is_kept in [(0.5, True), (0.92, True), (0.921, False), (1.5, False)]:
            with self.subTest(found):
                one = self.bench("ours", "plain", "tuned")
                self.assertTrue(one.keeps("the first", 0.1, 0.92))
                self.assertEqual(is_kept, one.keeps("list of a file", found, 0.92))
                said, status = self.said_of(one, 0.0)
                self.assertEqual(0 if is_kept else 1, status)
                self.assertEqual(not is_kept, "NOT KEPT: list of a file: " in said)
                self.assertIn(f"{1 + is_kept} of 2 marks of time are kept", said)

    def test_it_says_how_busy_other_work_kept_the_machine(self):
        for others, is_idle in [(0.0, True), (0.1, True), (0.2, False), (3.7, False)]:
            said, _ = self.said_of(self.bench("ours", "plain", "tuned"), others)
            self.assertIn(f"other work kept {others} of ", said)
            self.assertEqual(is_idle, "NOT IDLE" not in said)

    def test_programs_that_print_different_texts_are_not_measured(self):
        one = self.bench("ours", "plain")
        self.assertEqual(b"of list\n", one.same(["list", "file"]))
        self.program("plain", OTHER)
        with self.assertRaises(SystemExit):
            one.same(["list", "file"])

    def test_the_commands_of_a_row_take_turns(self):
        ran, times = [], itertools.count(10)

        def run(command, may_refuse):
            ran.append(command)
            return next(times)

        with mock.patch.object(measure, "run", run):
            least = measure.least_times(["a", "b", "c"], 3)
        self.assertEqual("abcbcacab", "".join(ran))
        self.assertEqual([10, 11, 12], least)

    def clock(self, *times):
        """The bench of ours, plain and tuned that take such times, as many as are given; the rows
        of its table of the clock, of two small files; and what it says."""
        one = self.bench(*["ours", "plain", "tuned"][: len(times)])
        shapes = [Shape("small", 1, 1, 1), Shape("small", 1, 1, 1, width=16)]
        with (
            mock.patch.object(bench, "LARGE", shapes),
            mock.patch.object(one, "times", return_value=times),
            mock.patch.object(sys, "stdout", io.StringIO()) as said,
        ):
            return one, bench.clock(one).rows[2:], said.getvalue()

    def test_each_time_beside_the_tuned_program_has_its_mark(self):
        one, rows, said = self.clock(95, 200, 100)
        self.assertEqual([0.92] * 4 + [0.95] + [0.92] * 3, [mark.most for mark in one.marks])
        self.assertEqual([False] * 4 + [True] + [False] * 3, [mark.is_kept() for mark in one.marks])
        for row in rows:
            self.assertEqual(["95.00", "200.00", "100.00", "0.475", "0.950"], row[2:7])
        self.assertNotIn("was named", said)

    def test_where_no_tuned_program_is_named_it_says_so(self):
        for times, marks, beside in [((95, 200), 8, "plain"), ((95,), 0, "none")]:
            one, _, said = self.clock(*times)
            self.assertEqual([True] * marks, [mark.is_kept() for mark in one.marks])
            self.assertIn(f"no program tuned was named: marks are beside {beside}\n", said)

    def test_the_file_of_what_was_measured_is_made_and_the_page_shows_some(self):
        """All of the file but the tables themselves stands in bench.py."""
        data, page = bench.DATA.read_text(), bench.PAGE.read_text()
        self.assertEqual([*bench.TABLES], [*bench.TITLES])
        self.assertEqual([*bench.TABLES], [*bench.tables_of(data)])
        self.assertEqual(data, bench.data_of(bench.tables_of(data)))
        self.assertIn(bench.short_of(bench.tables_of(data)), page)

    def test_a_table_is_put_into_its_place_and_the_others_stay(self):
        data, page, was = self.folder / "data.txt", self.folder / "page.md", bench.DATA.read_text()
        shown = bench.PAGE.read_text()
        for name in bench.TABLES:
            with self.subTest(name), mock.patch.multiple(bench, DATA=data, PAGE=page):
                with mock.patch.object(sys, "stdout", io.StringIO()):
                    table = bench.Table(name, *HEADS)
                    table.add(row := [bench.SHORT, *"123456"])
                said = "Commit 1, measured so."
                made = {name: "\n".join([said, "\t".join(HEADS), "\t".join(row)])}
                data.write_text(was)
                page.write_text(shown)
                bench.write_part(table, said)
                self.assertEqual(bench.data_of({**bench.tables_of(was), **made}), data.read_text())
                self.assertEqual(name != "clock", page.read_text() == shown)
                self.assertIn(bench.short_of({**bench.tables_of(was), **made}), page.read_text())

    def test_the_page_of_speed_has_the_marks(self):
        page = (ROOT / "bench" / "README.md").read_text()
        said = re.findall(r"^\| .* \| ([\d.]+) (times|ms) \| .*\|$", page, re.MULTILINE)
        adjusted = dict.fromkeys((most, of) for _, most, of in bench.ADJUSTED)
        marks = [
            (bench.TIMES_TUNED, "times"),
            (bench.TIMES_TUNED_OF_LONG_WORDS, "times"),
            *((most, "times" if of == bench.TIMES_MEANS else "ms") for most, of in adjusted),
            (bench.TIMES_DIRECTIONS, "times"),
            (bench.TIMES_LIST, "times"),
            (bench.TIMES_LIST_OF_JOB, "times"),
        ]
        self.assertEqual(marks, [(float(most), of) for most, of in said])


if __name__ == "__main__":
    unittest.main()
