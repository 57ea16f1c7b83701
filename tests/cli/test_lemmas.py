"""Each lemma of the proofs is cited, but for examples, which stand for themselves."""

import re
import unittest

from program import ROOT

COMMENT = re.compile(r"--.*")
IMPORT = re.compile(r"^use [^{;\n]*(\{[^}]*\})?;?\n", re.MULTILINE)
STATEMENT = re.compile(r"^(?:pub )?([^\s(){}:]+) :\s")
NAME = re.compile(r"[^\s(){}\[\],;.|]+")

# What the prover asks for by its name.
ASKED_FOR = ["Answers.antt", "Invariants.antt"]


def heads_and_lines(text):
    """The lines of a file of proofs or definitions without comments and imports, each with the name
    that its paragraph begins with."""
    head = None
    for line in IMPORT.sub("", COMMENT.sub("", text)).splitlines():
        if line[:1].strip():
            stated = STATEMENT.match(line)
            head = stated[1] if stated else line.split()[0]
        yield head, line


def uncited(files):
    """The lemmas that the files of proofs among these state and that nothing cites but themselves."""
    stated, cited = set(), {}
    for path in files:
        for head, line in heads_and_lines(path.read_text()):
            for name in NAME.findall(line):
                cited.setdefault(name, set()).add((path, head))
            if "proofs" in path.parts and path.name not in ASKED_FOR and (lemma := STATEMENT.match(line)):
                stated.add((path, lemma[1]))
    return {(path, name) for path, name in stated if not cited[name] - {(path, name)}}


class LemmasTest(unittest.TestCase):
    def test_each_lemma_is_cited(self):
        folders = ["crates/*/proofs", "crates/*/specs"]
        files = [path for folder in folders for path in ROOT.glob(f"{folder}/**/*.antt")]
        code = " ".join(path.read_text() for path in ROOT.glob("crates/*/src/**/*.rt"))
        for path, name in sorted(uncited(files)):
            if path.name != "Examples.antt" and not re.search(rf"\b{re.escape(name)}\b", code):
                with self.subTest(file=str(path.relative_to(ROOT))):
                    self.fail(f"nothing cites {name}")


if __name__ == "__main__":
    unittest.main()
