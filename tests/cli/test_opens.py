"""Each file that a command names is opened once, and no other, by a preloaded library that notes it.

No clause says how often a file is opened: a body that opens a pipe twice, or another file beside the
one that was named, would meet them all.
"""

import random
import string
import unittest

import preload
from against_model import FIELD, SHEET, TABLE
from program import ProgramTest, answer_of, side_by_side
from worked import JOB

# The words of each command that names files; its files stand in the folder of the run.
COMMANDS = {
    "words": ["words", "{field}"],
    "list": ["list", "{field}"],
    "list --csv": ["list", "--csv", "{field}"],
    "means": ["means", "{field}", "S1"],
    "check": ["check", "{field}", "{sheet}"],
    "check --sha256": ["check", "--sha256", "{field}", "{sheet}"],
    "directions": ["directions", "{field}", "S1"],
    "report": ["report", "{field}", "S1"],
    "report --csv": ["report", "--csv", "{field}", "S1"],
    "report --table": ["report", "--sha256", "--table", "{table}", "{field}", "S1"],
    "compare": ["compare", "{field}", "S1", "{table}"],
    "compare --sha256": ["compare", "--sha256", "{field}", "S1", "{table}"],
    "compare --residual": ["compare", "--residual=1", "{field}", "S1", "{table}"],
    "differences": ["differences", "{field}", "S1", "{table}"],
    "mark": ["mark", "--station=S1", "{job}"],
    "change": ["change", "--leave-out=1", "{job}"],
}
FILES = {"field": FIELD, "sheet": SHEET, "table": TABLE, "job": JOB}

# What a name of a file may be drawn from.
LETTERS = string.ascii_letters + string.digits + " _-.,+#%äß"


def drawn_name(draw, length):
    """A name of so many letters that is no option and no folder."""
    return "f" + "".join(draw.choice(LETTERS) for _ in range(length - 2)) + "x"


class OpensTest(ProgramTest):
    def opened(self, number, command, names):
        """Runs a command over files of these names; answers which files it opened."""
        folder = self.folder / str(number)
        folder.mkdir()
        for file, name in names.items():
            (folder / name).write_bytes(FILES[file])
        log = self.folder / f"{number}.log"
        env = {"LD_PRELOAD": str(self.library), "OPENED": str(log)}
        words = [word.format(**names) for word in COMMANDS[command]]
        status, _, _ = answer_of(words, env=env, cwd=folder)
        self.assertEqual(0, status, (command, names))
        return [name for name in log.read_text().splitlines() if name in names.values()]

    def test_each_file_is_opened_once(self):
        """Whatever its name and however long that is."""
        self.library = preload.built("noted_opens")
        draw, runs = random.Random(1), []
        for number, length in enumerate([*range(2, 60), 100, 200]):
            for command, words in COMMANDS.items():
                files = [file for file in FILES if f"{{{file}}}" in words]
                names = {file: drawn_name(draw, length)[: -1] + file[0] for file in files}
                runs.append((f"{number}-{len(runs)}", command, names))
        answers = side_by_side(lambda run: self.opened(*run), runs)
        for (_, command, names), opened in zip(runs, answers):
            if sorted(opened) != sorted(names.values()):
                with self.subTest(command, names=names):
                    self.assertEqual(sorted(names.values()), sorted(opened))


if __name__ == "__main__":
    unittest.main()
