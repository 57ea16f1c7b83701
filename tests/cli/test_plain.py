"""The plain program of bench/ and the shared library, in one process: both answer alike to field files,
sheets and tables with changes; a difference is said, and its files are left."""

import os
import re
import shutil
import subprocess
import unittest
from pathlib import Path

from program import ROOT, SWEEP, TIME_OF_A_TEST, Answer, ProgramTest, answer_to

SOURCE = ROOT / "bench" / "sweep.rs"
LIBRARY = ROOT / "build" / "libstation_check.so.1"

# The folders whose files are changed.
FOLDERS = [ROOT / "examples", *sorted((ROOT / "conformance").glob("*/*/*/"))]

# So many cases are run, of this seed.
CASES, SEED = 10_000_000 if SWEEP else 50_000, 1

# What is said of cases that were answered alike.
ALIKE = re.compile(
    rf"sweep: {CASES} cases of seed {SEED} answered alike in [\d.]+ s: check \d+ \((\d+) written\), "
    r"compare \d+ \((\d+) written\), directions \d+ \((\d+) written\), list \d+ \((\d+) written\), "
    r"means \d+ \((\d+) written\), words \d+ \((\d+) written\)\n"
)

# A library that refuses all, and says nothing.
REFUSING = r"""
#include <station_check.h>

#define REFUSE { *length = 0; return STATION_CHECK_REFUSED; }

uint8_t station_check_words(const void *gsi, size_t n, char *text, size_t room, size_t *length,
                            char *refusal, size_t more, size_t *other) { *other = 0; REFUSE }
uint8_t station_check_list(const void *gsi, size_t n, uint32_t two_c, uint32_t two_i,
                           char *text, size_t room, size_t *length) REFUSE
uint8_t station_check_means(const void *gsi, size_t n, const char *station, size_t m,
                            uint32_t two_c, uint32_t two_i,
                            char *text, size_t room, size_t *length) REFUSE
uint8_t station_check_directions(const void *gsi, size_t n, const char *station, size_t m,
                                 uint32_t two_c, uint32_t two_i, uint32_t decimals,
                                 char *text, size_t room, size_t *length) REFUSE
uint8_t station_check_check(const void *gsi, size_t n, const void *sheet, size_t m,
                            uint32_t two_c, uint32_t two_i, uint32_t is_stated, uint32_t residual,
                            char *text, size_t room, size_t *length) REFUSE
uint8_t station_check_compare(const void *gsi, size_t n, const void *table, size_t m,
                              const char *station, size_t k,
                              uint32_t two_c, uint32_t two_i,
                              uint32_t unit, uint32_t names, uint32_t directions,
                              uint32_t is_stated, uint32_t within,
                              char *text, size_t room, size_t *length,
                              char *note, size_t more, size_t *other) { *other = 0; REFUSE }
"""


# Where a program looks for the jobs of a make that started it.
OF_JOBS = ["CARGO_MAKEFLAGS", "MAKEFLAGS", "MFLAGS"]


@unittest.skipUnless(shutil.which("rustc"), "no rustc is found")
class PlainTest(ProgramTest):
    def built(self, library: Path) -> Path:
        """The sweep, linked with a library."""
        program = self.folder / "sweep"
        words = ["rustc", "--edition", "2021", "-C", "opt-level=3", "-D", "warnings"]
        for link in (library, f"-Wl,-rpath,{library.parent}"):
            words += ["-C", f"link-arg={link}"]
        # (make tells what it starts of its jobs, and rustc complains where their pipe is closed)
        env = {name: text for name, text in os.environ.items() if name not in OF_JOBS}
        self.assertEqual((0, b"", b""), answer_to([*words, "-o", program, SOURCE], env=env))
        return program

    def swept(self, library: Path, *folders: Path, **environment: str) -> Answer:
        """What the sweep says."""
        words = [str(CASES), str(SEED), *map(str, folders)]
        env = {**os.environ, **environment}
        done = subprocess.run(
            [self.built(library), *words], capture_output=True, env=env, timeout=TIME_OF_A_TEST
        )
        return done.returncode, done.stdout, done.stderr

    @unittest.skipUnless(LIBRARY.exists(), "the library is not made: make library")
    def test_changed_files_have_the_answers_of_a_plain_program(self) -> None:
        # (the files of a case that is answered otherwise stay, whatever becomes of the test's own)
        status, said, complained = self.swept(LIBRARY, *FOLDERS)
        self.assertEqual((0, b""), (status, complained), said.decode())
        found = ALIKE.fullmatch(said.decode())
        assert found, said.decode()
        if SWEEP:
            print(said.decode(), end="", flush=True)
        for written in found.groups():
            self.assertGreater(int(written), CASES // 1_000)

    @unittest.skipUnless(shutil.which("cc"), "no C compiler is found")
    def test_the_first_difference_is_said_and_its_files_are_left(self) -> None:
        source, library = self.folder / "refusing.c", self.folder / LIBRARY.name
        source.write_text(REFUSING)
        words = ["cc", f"-I{ROOT / 'capi'}", "-shared", "-fPIC", f"-Wl,-soname,{library.name}"]
        self.assertEqual((0, b"", b""), answer_to([*words, "-o", library, source]))
        examples = ROOT / "examples"
        status, said, complained = self.swept(library, examples, TMPDIR=str(self.folder))
        self.assertEqual((1, b""), (status, complained))
        lines = said.decode().splitlines()
        self.assertRegex(lines[0], rf"^sweep: seed {SEED}, file \d+: \w+ is answered otherwise$")
        self.assertEqual('library: 1 "" ""', lines[1])
        self.assertTrue(lines[2].startswith('plain:   written "'), lines[2])
        folder = Path(lines[3].removeprefix("its files: "))
        self.assertEqual(self.folder, folder.parent)
        self.assertEqual({"field.gsi", "other.csv", "station"}, {path.name for path in folder.iterdir()})


if __name__ == "__main__":
    unittest.main()
