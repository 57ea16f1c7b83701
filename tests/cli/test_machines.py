"""The command for more than one machine, of GNU parallel, where it is found: with this machine alone."""

import csv
import re
import shutil
import subprocess
import unittest

from pages import environment_of, tools
from program import ROOT, ProgramTest
from worked import SHEET, STATION, edited

PAGE = ROOT / "docs" / "MACHINES.md"
BLOCK = re.compile(r"^```sh\n(.*?)^```$", re.DOTALL | re.MULTILINE)

# The command that lists the folders.
LISTING = re.compile(r"`(find .*? > folders)`")

TIME = 60

# The folders, and the exit status of each.
STATUSES = {"jobs/friday": 0, "jobs/monday": 1, "jobs/tuesday": 0}

# The lines that say where the work goes: here, to this machine.
MACHINES = ":\n"


class MachinesTest(ProgramTest):
    def setUp(self):
        super().setUp()
        tools(self.folder / "bin")
        shutil.copy(ROOT / "examples" / "check_folder.py", self.folder)
        (self.folder / "machines").write_text(MACHINES)
        for name, status in STATUSES.items():
            folder = self.folder / name
            folder.mkdir(parents=True)
            (folder / "job.gsi").write_bytes(STATION)
            wrong = edited(SHEET, (b"set,1,,-20,", b"set,1,,-21,"))
            (folder / "job.csv").write_bytes(wrong if status else SHEET)
        self.assertEqual(0, self.run_script(LISTING.search(PAGE.read_text())[1]).returncode)
        self.assertEqual([*STATUSES], (self.folder / "folders").read_text().splitlines())

    def run_script(self, script, **more):
        of_tools = environment_of(self.folder / "bin")
        environment = {**of_tools, "HOME": str(self.folder), **more}
        run = {"cwd": self.folder, "env": environment, "capture_output": True, "timeout": TIME}
        return subprocess.run(["sh", "-c", script], **run)

    def check_reports(self):
        for name, status in STATUSES.items():
            report = (self.folder / f"{name}.report").read_text().splitlines()
            done = "0 of 1 field files done; " if status else "1 of 1 field files done; "
            self.assertTrue(report[-1].startswith(done), report)

    def test_gnu_parallel_checks_each_folder(self):
        if not shutil.which("parallel"):
            self.skipTest("no parallel is found")
        [command] = BLOCK.findall(PAGE.read_text())
        done = self.run_script(command)
        self.assertEqual(1, done.returncode, done.stderr)
        with open(self.folder / "checks.log", newline="") as file:
            rows = list(csv.DictReader(file, delimiter="\t"))
        names = [re.search(r"jobs/\w+", row["Command"])[0] for row in rows]
        statuses = [int(row["Exitval"]) for row in rows]
        self.assertEqual(STATUSES, dict(zip(names, statuses)))
        self.check_reports()


if __name__ == "__main__":
    unittest.main()
