"""The completions of bash, zsh and fish; those of a shell that isn't found are skipped. What they and
the manual page say of commands is what the program's help says."""

import os
import shutil
import subprocess
import sys
import unittest

from program import PROGRAM, ROOT, ProgramTest
from test_explain import names

sys.path.insert(0, str(ROOT / "tools"))
import commands  # noqa: E402

SHARE = ROOT / "packaging" / "share"
BASH = SHARE / "bash-completion" / "completions" / "station_check"
ZSH = SHARE / "zsh" / "site-functions"
FISH = SHARE / "fish" / "vendor_completions.d" / "station_check.fish"

COMMANDS = [
    *["compare", "differences", "directions", "report", "check", "means", "mark", "change"],
    *["list", "words"],
    *["explain", "help"],
]

FACE_LIMITS = ["--two-c", "--two-i"]

# The options that say how a table is read.
TABLE_FORMS = ["--degrees", "--dmmss", "--columns"]

# The options with a value that a command has for itself.
OWN_OPTIONS = {
    "compare": ["--residual", "--within"],
    "directions": ["--residual", "--decimals"],
    "report": ["--residual", "--table", *TABLE_FORMS, "--within", "--language", "--date", "--note"],
    "check": ["--residual"],
}

# The flags of a command.
FLAGS = {
    "compare": ["--sha256"],
    "directions": ["--decimal-comma"],
    "report": ["--sha256", "--signature", "--pages", "--csv", "--decimal-comma"],
    "check": ["--sha256"],
}

# Those that stand before its limits.
FIRST_FLAGS = {"compare": ["--all", *TABLE_FORMS], "directions": ["--all"], "report": ["--all"], "check": []}

# Asks the completion of bash for a line, whose last word may be empty.
ASK_BASH = """
source "$1"
shift
COMP_WORDS=("$@")
COMP_CWORD=$(($# - 1))
[[ $(complete -p station_check) == *_station_check* ]] || exit 1
_station_check
printf '%s\\n' "${COMPREPLY[@]}"
"""

# Asks whether zsh finds a completion of the program, and reads it whole.
ASK_ZSH = """
fpath=("$1" $fpath)
autoload -Uz compinit
compinit -u -D
autoload +X -Uz _station_check && print -- $_comps[station_check]
"""


def printed(command, **options):
    done = subprocess.run(command, capture_output=True, text=True, timeout=60, **options)
    assert (done.returncode, done.stderr) == (0, ""), done
    return done.stdout


class CompletionsTest(ProgramTest):
    def setUp(self):
        super().setUp()
        (self.folder / "field.gsi").write_bytes(b"")
        (self.folder / "sheet.csv").write_bytes(b"")

    def of_bash(self, *words):
        """What bash proposes in place of the last of these words."""
        command = ["bash", "-c", ASK_BASH, "bash", BASH, PROGRAM, *words]
        return printed(command, cwd=self.folder).split("\n")[:-1]

    def test_what_is_made_of_the_help_is_up_to_date(self):
        """Where this fails, `python3 tools/commands.py` makes it anew."""
        for path, text in commands.pages(PROGRAM):
            with self.subTest(path.name):
                self.assertEqual(text, path.read_text())

    def test_bash_completes_commands(self):
        self.assertEqual(["check"], self.of_bash("che"))
        self.assertEqual(["compare", "check", "change"], self.of_bash("c"))
        self.assertEqual(COMMANDS, self.of_bash(""))
        self.assertEqual(COMMANDS, self.of_bash("help", ""))
        self.assertEqual([""], self.of_bash("nonsense", ""))

    def test_bash_completes_options(self):
        self.assertEqual(["--help", "--version"], self.of_bash("-"))
        for command, own in OWN_OPTIONS.items():
            options = [*FIRST_FLAGS[command], *FACE_LIMITS, *own, *FLAGS[command], "--help"]
            self.assertEqual(options, self.of_bash(command, "-"))
            self.assertEqual([""], self.of_bash(command, own[-1], ""))
        self.assertEqual(FACE_LIMITS, self.of_bash("check", "field.gsi", "--two"))
        self.assertEqual([*FACE_LIMITS, "--csv", "--decimal-comma", "--help"], self.of_bash("list", "-"))
        own = ["--residual", "--decimal-comma", "--json"]
        of_differences = ["--all", *TABLE_FORMS, *FACE_LIMITS, *own, "--help"]
        self.assertEqual(of_differences, self.of_bash("differences", "-"))
        self.assertEqual([*FACE_LIMITS, "--help"], self.of_bash("means", "-"))
        options = ["--station", "--same-set-up", "--again", "--station-code"]
        options += ["--sets", "--targets", "--others"]
        self.assertEqual([*options, "--help"], self.of_bash("mark", "-"))
        for command in ["words", "explain", "help"]:
            self.assertEqual(["--help"], self.of_bash(command, "-"))
        for words in [["--two-c", ""], ["--two-i", "="], ["--residual", "=", "1"]]:
            self.assertEqual([""], self.of_bash("check", *words))

    def test_bash_completes_files(self):
        for command in [name for name in COMMANDS if name not in ("explain", "help")]:
            self.assertEqual(["field.gsi", "sheet.csv"], sorted(self.of_bash(command, "")))
        self.assertEqual(["sheet.csv"], self.of_bash("check", "--two-c", "1", "field.gsi", "s"))
        self.assertEqual(["sheet.csv"], self.of_bash("check", "--two-c", "=", "1", "field.gsi", "s"))
        self.assertEqual(["sheet.csv"], self.of_bash("check", "--sha256", "field.gsi", "s"))
        for words in [["--table", "s"], ["--table", "=", "s"], ["field.gsi", "S1", "--table", "s"]]:
            self.assertEqual(["sheet.csv"], self.of_bash("report", *words))
        self.assertEqual(["field.gsi", "sheet.csv"], sorted(self.of_bash("report", "--table", "=")))
        for command in ["compare", "differences"]:
            self.assertEqual(["sheet.csv"], self.of_bash(command, "field.gsi", "S1", "s"))
        named = ["means a", "directions a", "report a", "compare a", "differences a"]
        for words in ["check a b", *named, "compare a b c", "differences a b c", "list a"]:
            self.assertEqual([""], self.of_bash(*words.split(), ""))

    def test_bash_completes_faults(self):
        self.assertEqual(sorted(names()), sorted(self.of_bash("explain", "")))
        self.assertEqual(["TwoC", "TwoI", "TwoLines"], self.of_bash("explain", "Two"))

    @unittest.skipUnless(shutil.which("zsh"), "no zsh is found")
    def test_zsh_finds_its_completion(self):
        command = ["zsh", "-f", "-c", ASK_ZSH, "zsh", ZSH]
        self.assertEqual("_station_check\n", printed(command, env={**os.environ, "HOME": str(self.folder)}))

    def of_fish(self, line):
        """What fish proposes for a line, where the program is found by the name that users call it by."""
        home, found_in = str(self.folder / "home"), self.folder / "bin"
        if not found_in.exists():
            found_in.mkdir()
            (found_in / "station_check").symlink_to(PROGRAM.resolve())
        path = f"{found_in}:{os.environ['PATH']}"
        env = {**os.environ, "HOME": home, "XDG_CONFIG_HOME": home, "XDG_DATA_HOME": home, "PATH": path}
        command = ["fish", "--no-config", "-c", f"source '{FISH}'; complete -C '{line}'"]
        lines = printed(command, cwd=self.folder, env=env).splitlines()
        return sorted(line.split("\t")[0] for line in lines)

    @unittest.skipUnless(shutil.which("fish"), "no fish is found")
    def test_fish_completes(self):
        for line, expected in [
            ("station_check che", ["check"]),
            ("station_check ", sorted(COMMANDS)),
            ("station_check check --", ["--help", "--residual", "--sha256", *FACE_LIMITS]),
            (
                "station_check compare --",
                [
                    *["--all", "--columns", "--degrees", "--dmmss", "--help", "--residual", "--sha256"],
                    *[*FACE_LIMITS, "--within"],
                ],
            ),
            (
                "station_check directions --",
                ["--all", "--decimal-comma", "--decimals", "--help", "--residual", *FACE_LIMITS],
            ),
            (
                "station_check report --",
                [
                    *["--all", "--columns", "--csv", "--date", "--decimal-comma", "--degrees", "--dmmss"],
                    *["--help", "--language", "--note", "--pages", "--residual", "--sha256", "--signature"],
                    "--table",
                    *[*FACE_LIMITS, "--within"],
                ],
            ),
            ("station_check report --table s", ["sheet.csv"]),
            ("station_check list --two", FACE_LIMITS),
            ("station_check list f", ["field.gsi"]),
            ("station_check explain Two", ["TwoC", "TwoI", "TwoLines"]),
            ("station_check help m", ["mark", "means"]),
        ]:
            with self.subTest(line):
                self.assertEqual(expected, self.of_fish(line))


if __name__ == "__main__":
    unittest.main()
