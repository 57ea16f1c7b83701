"""`make run` and `make try`, by a toolchain that only says what it was asked: which crates are proved,
in which order and side by side; runs that are cut off; that `make try` says that nothing is proved;
the same archive however often it is built."""

import os
import re
import shutil
import signal
import subprocess
import unittest
from functools import partial

from program import ROOT, ProgramTest, until

# What each crate stands on: the least that the rules of crates.txt tell apart.
CRATES = {
    "low": [],
    "other_low": [],
    "tests_low": ["low"],
    "middle": ["low", "other_low"],
    "station_compare": ["middle"],
    "station_explain": ["low"],
    "not_of_the_program": ["low"],
    "only_of_the_page": ["station_compare"],
    "station_page staticlib": ["only_of_the_page"],
    "station_program": ["station_compare", "station_explain", "clap"],
}
PROVED = ["low", "other_low", "middle", "station_compare", "station_explain", "station_program"]

# A toolchain, by the name that it is called by: `rt` tells where it lies, and what it was asked to try;
# rattle proves a crate over the libraries that it is told of, waits a moment and says what it proved,
# and rattle-link makes a program.
# One of the crates that are to MEET waits until all of them have begun; the one to HOLD, until it is told
# to go on.
TOOLCHAIN = """\
#!/usr/bin/env python3
import os
import sys
import time
from pathlib import Path

tool, words = Path(sys.argv[0]), sys.argv[1:]
if tool.name == "rt" and words[:2] == ["try", "--cases"]:
    data = dict(word.split("=") for word in words[4::2])
    statuses = iter(os.environ["STATUSES"].split())
    for case in sorted(Path(words[2]).glob("?")):
        args = case.with_suffix(".args").read_text().split()
        assert all(Path(data[word]).is_file() for word in args if "." in word)
        print(f"== {case.name}\\nasked {' '.join(args)}\\n== no case", flush=True)
        end = "run=ended status=" + next(statuses)
        print(f"said of {case.name}\\ncase={case.name} {end} proved=no", file=sys.stderr)
    print("cases=5 ended=5 proved=no", file=sys.stderr)
    sys.exit()
if tool.name == "rt":
    print("a toolchain" if words == ["--version"] else tool.parent.parent / "START-HERE.md")
    sys.exit()
to = Path(words[words.index("-o") + 1])
if tool.name == "rattle-link":
    to.write_text("#!/bin/sh\\n# GLIBC_2.34\\necho station_check 0.0\\n")
    to.chmod(0o755)
    sys.exit()
crate, calls = words[words.index("--crate-name") + 1], Path(os.environ["CALLS"])


def say(text):
    with open(calls, "a") as file:
        file.write(text)


named = [words[at + 1].split("=") for at, word in enumerate(words) if word == "--extern"]
for name, library in named:
    assert "/kit/" in library or Path(library, "whole").exists(), f"{name} is not proved"
jobs = words[words.index("--jobs") + 1]
(calls.parent / f"asked_{crate}").write_text(f"{jobs} {'--statements' in words}")
say(f"begin {crate} {' '.join(name for name, _ in named)}\\n")
meet = os.environ.get("MEET", "").split()
end = time.monotonic() + 10
while crate in meet and not all(f"begin {name} " in calls.read_text() for name in meet):
    if time.monotonic() > end:
        sys.exit(f"{crate} is alone")
    time.sleep(0.01)
source = Path(words[words.index("--crate-name") + 2]).read_text()
if crate == os.environ.get("HOLD"):
    say(f"held {crate}\\n")
    while not (calls.parent / "go_on").exists():
        time.sleep(0.01)
time.sleep(0.2)
if "WRONG" in source:
    print(*range(40), "an open goal", sep="\\n")
    sys.exit(1)
print(f"logic=proved functions={source.count(chr(10))}")
if "--statements" in words:
    to.mkdir(exist_ok=True)
    (to / "whole").touch()
else:
    to.touch()
say(f"end {crate}\\n")
"""


def run_of(*command, **more):
    return subprocess.run([*command], capture_output=True, text=True, timeout=60, **more)


class MakeTest(ProgramTest):
    def setUp(self):
        super().setUp()
        for name in ("Makefile", "HANDLES", "README.md", "CHANGELOG.md"):
            shutil.copy(ROOT / name, self.folder / name)
        for name in ("capi", "docs", "examples", "packaging", "tools"):
            shutil.copytree(ROOT / name, self.folder / name, ignore=shutil.ignore_patterns("__pycache__"))
        lines = [f"{crate}: {' '.join(below)}\n" for crate, below in CRATES.items()]
        (self.folder / "crates.txt").write_text("".join(lines))
        for crate in CRATES:
            self.write(crate.split()[0], "one\n")
        tools = self.folder / "kit" / "bin"
        tools.mkdir(parents=True)
        for name in ("rt", "rattle", "rattle-link"):
            (tools / name).write_text(TOOLCHAIN)
            (tools / name).chmod(0o755)
        self.toolchain = tools / "rt"
        self.calls = self.folder / "calls"
        self.go_on = self.folder / "go_on"

    def write(self, crate, text):
        (self.folder / "crates" / crate / "src").mkdir(parents=True, exist_ok=True)
        root = "main.rt" if crate == "station_program" else "lib.rt"
        (self.folder / "crates" / crate / "src" / root).write_text(text)

    def asked(self, targets, more):
        """What make is asked, and how; the calls of the toolchain begin anew."""
        self.calls.write_text("")
        words = ["make", "--no-print-directory", f"RT={self.toolchain}", *targets]
        environment = {"PATH": "/usr/bin:/bin:/usr/local/bin", "CALLS": str(self.calls), **more}
        return words, {"cwd": self.folder, "env": environment}

    def make(self, *targets, **more):
        """What make says of the crates, and its status."""
        words, options = self.asked(targets, more)
        return run_of(*words, **options)

    def begin(self, *targets, **more):
        """A make whose toolchain is held in a crate, in a process group of its own. What is started
        in the background ignores the interrupt of a terminal; it does not."""
        words, options = self.asked(targets, more)
        streams = {"stdout": subprocess.DEVNULL, "stderr": subprocess.DEVNULL}
        heeds = partial(signal.signal, signal.SIGINT, signal.SIG_DFL)
        run = subprocess.Popen(words, start_new_session=True, preexec_fn=heeds, **options, **streams)
        until(lambda: "held " in self.calls.read_text())
        return run

    def begun(self):
        """The crates that the toolchain was asked for, in order."""
        return re.findall(r"^begin (\w+)", self.calls.read_text(), re.MULTILINE)

    def stamps(self):
        return sorted(path.name for path in (self.folder / "build" / "proved").iterdir())

    def log(self, crate):
        return (self.folder / "build" / "proved" / crate).read_text()

    def test_crates_are_proved_after_those_that_they_stand_on(self):
        made = self.make("run", "JOBS=4")
        self.assertEqual(0, made.returncode, made.stderr)
        self.assertEqual(sorted(PROVED), sorted(self.begun()))
        calls = self.calls.read_text().splitlines()
        for crate in PROVED:
            at = calls.index(f"begin {crate} {' '.join(['std', *CRATES[crate]])}")
            for low in set(CRATES[crate]) & set(PROVED):
                self.assertLess(calls.index(f"end {low}"), at, f"{crate} before {low}")
        said = re.findall(r"(\w+) is proved, (\d+) of 6$", made.stderr, re.MULTILINE)
        self.assertEqual([str(n + 1) for n in range(6)], [n for _, n in said])

    def test_what_is_tried_is_shown_and_said_to_be_unproved(self):
        made = self.make("try", STATUSES="0 0 1 0 0")
        self.assertEqual((0, ""), (made.returncode, made.stderr))
        shown = re.findall(r"^\$ station_check (.*)\nasked (.*)\n== no case\nsaid of \d$", made.stdout, re.M)
        self.assertEqual(["directions", "compare", "compare", "check", "list"], [one.split()[0] for one, _ in shown])
        for words, asked in shown:
            self.assertEqual(words, asked)
        lines = made.stdout.splitlines()
        self.assertTrue(lines[0].startswith("make try: nothing is proved by this."), lines[0])
        self.assertTrue(lines[-1].startswith("make try: nothing was proved: "), lines[-1])
        self.assertIn("cases=5 ended=5 proved=no", lines)
        self.assertFalse((self.folder / "build" / "station_check").exists())

    def test_a_try_that_answers_otherwise_fails_and_shows_all_that_was_said(self):
        for statuses in ("0 0 0 0 0", "1 0 1 0 0", "0 0 1 0 2"):
            with self.subTest(statuses):
                made = self.make("try", STATUSES=statuses)
                self.assertNotEqual(0, made.returncode)
                for said in ("== 5\nasked list", "case=5 run=ended", "make try: FAILED", "nothing was proved"):
                    self.assertIn(said, made.stdout)

    def test_the_page_is_made_after_the_crates_that_it_stands_on(self):
        (self.folder / "page").mkdir()
        for name in ("heap.c", "station_check.html", "build.py"):
            (self.folder / "page" / name).touch()
        made = self.make("page")
        self.assertEqual(0, made.returncode, made.stderr)
        page = ["low", "middle", "only_of_the_page", "other_low", "station_compare"]
        self.assertEqual(page, sorted(self.begun()))
        self.assertEqual("5 of 5", re.findall(r"is proved, (.*)$", made.stderr, re.MULTILINE)[-1])
        self.assertNotIn("warning", made.stderr)

    def test_a_page_that_is_newer_than_its_sources_asks_for_no_proof(self):
        (self.folder / "page").mkdir()
        for name in ("page/heap.c", "page/station_check.html", "build/station_check.html"):
            (self.folder / name).parent.mkdir(exist_ok=True)
            (self.folder / name).touch()
        made = self.make("page", "PYTHON=false")
        self.assertEqual((0, []), (made.returncode, self.begun()), made.stderr)

    def test_wrong_bodies_are_tried_once_all_that_they_are_tried_over_is_proved(self):
        (self.folder / "tools" / "wrong_bodies.py").write_text("import sys\nprint(sys.argv[1:])\n")
        made = self.make("wrong-bodies", "CRATES=station_explain middle", "JOBS=2")
        self.assertEqual((0, "['station_explain', 'middle', '--jobs', '2']\n"), (made.returncode, made.stdout))
        self.assertEqual(["low", "middle", "other_low", "station_explain"], sorted(self.begun()))
        self.assertNotIn("warning", made.stderr)

    def test_crates_are_proved_side_by_side(self):
        for jobs, most in [("JOBS=4", 2), ("JOBS=1", 1)]:
            with self.subTest(jobs):
                self.make("clean")
                self.make("run", jobs)
                running = [0]
                for call in self.calls.read_text().splitlines():
                    running.append(running[-1] + (1 if call.startswith("begin") else -1))
                self.assertEqual(most > 1, max(running) > 1)

    def test_proofs_are_shared_where_little_is_proved_beside_them(self):
        """Where less than three tenths of the lines can be proved beside a crate, as many processes share
        its proof as crates are proved side by side; and two that of another with more than a tenth of
        all lines, as each has here. Of libraries the statements are kept."""
        for jobs, few in [(4, 2), (1, 1)]:
            with self.subTest(jobs):
                self.make("clean")
                self.make("run", f"JOBS={jobs}")
                asked = {crate: (self.folder / f"asked_{crate}").read_text() for crate in PROVED}
                most, two = {"low", "middle", "station_compare"}, {"other_low", "station_explain"}
                self.assertEqual({f"{jobs} True"}, {asked[crate] for crate in most})
                self.assertEqual({f"{few} True"}, {asked[crate] for crate in two})
                self.assertEqual(f"{jobs} False", asked["station_program"])
        self.write("middle", 5_000 * "one\n")
        shared = run_of("python3", "tools/order.py", "station_explain", "4", cwd=self.folder)
        self.assertEqual("1\n", shared.stdout)

    def test_crates_that_begin_longer_chains_are_begun_first(self):
        order = run_of("python3", "tools/order.py", cwd=self.folder).stdout.split()
        self.assertEqual(["low", "other_low", "middle", "station_compare", "station_explain", "station_program"], order)
        self.write("station_explain", 500 * "one\n")
        order = run_of("python3", "tools/order.py", cwd=self.folder).stdout.split()
        self.assertEqual(["low", "station_explain", "other_low", "middle", "station_compare", "station_program"], order)

    def test_crates_on_the_same_library_are_proved_side_by_side(self):
        made = self.make("run", "JOBS=4", MEET="middle station_explain")
        self.assertEqual(0, made.returncode, made.stderr)

    def test_what_changed_is_proved_and_what_stands_on_it(self):
        self.make("run")
        for crate, again in [
            (None, []),
            ("other_low", ["other_low", "middle", "station_compare", "station_program"]),
            ("station_explain", ["station_explain", "station_program"]),
            ("tests_low", []),
        ]:
            with self.subTest(crate):
                if crate:
                    self.write(crate, "one\ntwo\n")
                self.assertEqual(0, self.make("run").returncode)
                self.assertEqual(again, self.begun())

    def test_a_proof_that_fails_is_shown_and_nothing_is_built_on_it(self):
        self.write("middle", "WRONG\n")
        made = self.make("run")
        self.assertNotEqual(0, made.returncode)
        self.assertIn("middle is NOT PROVED", made.stderr)
        self.assertIn("an open goal", made.stderr)
        self.assertNotIn("station_program", self.begun())
        self.assertFalse((self.folder / "build" / "station_check").exists())
        self.write("middle", "one\n")
        self.assertEqual(0, self.make("run").returncode)
        self.assertEqual(["middle", "station_compare", "station_program"], self.begun())

    def test_a_source_that_changes_during_its_proof_is_proved_again(self):
        run = self.begin("run", HOLD="middle")
        changed = self.folder / "changed"
        changed.write_text("one\ntwo\n")
        changed.replace(self.folder / "crates" / "middle" / "src" / "lib.rt")
        self.go_on.touch()
        self.assertEqual(0, run.wait(timeout=60))
        self.assertEqual("logic=proved functions=1\n", self.log("middle"))
        self.assertEqual(0, self.make("run").returncode)
        self.assertEqual(["middle", "station_compare", "station_program"], self.begun())
        self.assertEqual("logic=proved functions=2\n", self.log("middle"))

    def test_a_proof_that_was_cut_off_begins_anew_over_what_is_proved(self):
        for how in (signal.SIGINT, signal.SIGTERM, signal.SIGKILL):
            with self.subTest(how.name):
                self.make("clean")
                run = self.begin("run", HOLD="middle")
                os.killpg(run.pid, how)
                self.assertNotEqual(0, run.wait(timeout=60))
                self.assertNotIn("middle", self.stamps())
                made = self.make("run")
                self.assertEqual(0, made.returncode, made.stderr)
                self.assertNotIn("low", self.begun())
                self.assertIn("middle", self.begun())

    def test_the_log_of_a_proof_outlasts_a_run_that_has_nothing_to_prove(self):
        self.make("run")
        self.assertEqual(0, self.make("run").returncode)
        self.assertEqual([], self.begun())
        for crate in PROVED:
            self.assertEqual("logic=proved functions=1\n", self.log(crate))

    def test_a_crate_whose_log_is_lost_is_proved_again(self):
        self.make("run")
        (self.folder / "build" / "proved" / "other_low").unlink()
        self.assertEqual(0, self.make("run").returncode)
        again = ["other_low", "middle", "station_compare", "station_program"]
        self.assertEqual(again, self.begun())
        self.assertEqual("logic=proved functions=1\n", self.log("other_low"))

    def test_the_same_commit_gives_the_same_archive_however_often_it_is_built(self):
        archives = []
        # At first, where nothing is left to prove, and from nothing.
        for is_new in (True, False, True):
            if is_new:
                shutil.rmtree(self.folder / "build", ignore_errors=True)
            made = self.make("dist", SOURCE_DATE_EPOCH="1000000000")
            self.assertEqual(0, made.returncode, made.stderr)
            dist = self.folder / "build" / "dist"
            archives.append({path.name: path.read_bytes() for path in dist.iterdir()})
        self.assertEqual(archives[:1] * 3, archives)


if __name__ == "__main__":
    unittest.main()
