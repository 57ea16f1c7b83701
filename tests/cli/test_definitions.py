"""docs/DEFINITIONS.md is made from the comments of the definitions, docs/PROMISE.md has those of the promise
whole, and both are up to date; no name of a definition stands for two things in one crate."""

import re
import sys
import unittest

from program import ROOT

sys.path.insert(0, str(ROOT / "tools"))

import definitions
import promise

# The names that a file takes of another crate's definitions, or of its own crate's.
CITED = re.compile(r"use Rattle\.(\w+)\.specs\.(\w+)\.\{([^}]*)\}")

# One thing in several crates: the line and the text of a refusal, of each crate's own faults.
ALIKE = {"refusal_line", "refusal_text"}


def promised():
    """The files that the promises rest on."""
    firsts = [definitions.ACCEPTANCE, definitions.AGREEMENT, *definitions.PRINTED.values()]
    closures = [definitions.closure(definitions.Spec(*first)) for first in firsts]
    return dict.fromkeys(spec for closure in closures for spec in closure)


def origins(crate):
    """The names of definitions that a crate meets: its own, and those that its files cite; of each
    the crates that define it. Names that it calls by their file's are not among them."""
    found = {}
    folder = ROOT / "crates" / crate
    for path in [*folder.glob("specs/**/*.antt"), *folder.glob("src/**/*.rt")]:
        for origin, _, names in CITED.findall(path.read_text()):
            for name in names.split(","):
                if origin != "std":
                    found.setdefault(name.split(" as ")[0].strip(), set()).add(origin)
    for spec in definitions.specs_of(crate):
        for definition in spec.definitions():
            found.setdefault(definition.name, set()).add(crate)
    return found


class DefinitionsTest(unittest.TestCase):
    def test_no_name_stands_for_two_things_in_one_crate(self):
        for crate in definitions.crates():
            for name, crates in origins(crate).items():
                if name not in ALIKE:
                    with self.subTest(crate, name=name):
                        self.assertEqual(1, len(crates), crates)

    def test_the_page_is_up_to_date(self):
        """Where this fails, `python3 tools/definitions.py` makes it anew."""
        self.assertEqual(definitions.page(), definitions.PAGE.read_text())

    def test_each_definition_of_the_promise_has_a_comment(self):
        for spec in promised():
            for definition in spec.definitions():
                with self.subTest(file=spec.path.name, definition=definition.name):
                    self.assertTrue(definition.comment)

    def test_each_file_of_definitions_says_what_it_is_about(self):
        for crate in definitions.crates():
            for spec in definitions.specs_of(crate):
                with self.subTest(crate, file=spec.path.name):
                    self.assertTrue(spec.head())

    def test_each_row_of_the_page_is_a_sentence(self):
        for row in re.findall(r"^ *- `\w+`: (.*)$", definitions.PAGE.read_text(), re.MULTILINE):
            with self.subTest(row):
                self.assertRegex(row, r"^([A-Z0-9]|[b-z]\b).*[.:]$")

    def test_no_definition_of_the_promise_is_left_out(self):
        """What the promise cites is in files that the list of its crate's definitions names."""
        for spec in promised():
            for crate, module in re.findall(r"Rattle\.(\w+)\.specs\.(\w+)", spec.text()):
                if crate in definitions.crates() and module != "declared":
                    with self.subTest(file=spec.path.name, cites=f"{crate} {module}"):
                        self.assertIn(definitions.Spec(crate, module), definitions.specs_of(crate))


class PromiseTest(unittest.TestCase):
    @classmethod
    def setUpClass(cls):
        cls.needed = promise.closure(promise.Cited(*promise.PROMISE))
        cls.listed = [one for _, ones in promise.in_order(cls.needed) for one in ones]

    def test_the_page_is_up_to_date(self):
        """Where this fails, `python3 tools/promise.py` makes it anew."""
        self.assertEqual(promise.page(), promise.PAGE.read_text())

    def test_each_definition_stands_after_all_that_it_names(self):
        own = {one for one in self.needed if definitions.Spec(one.crate, one.module).path.is_file()}
        self.assertEqual(own, set(self.listed))
        before = set()
        for one in self.listed:
            before.add(one)
            with self.subTest(one):
                self.assertLessEqual(own.intersection(promise.cited(one)), before)

    def test_each_definition_has_a_comment(self):
        for one in self.listed:
            with self.subTest(one):
                self.assertRegex(promise.text_of(one), r"\A--")

    def test_each_word_of_the_library_is_explained(self):
        named = {one.name for one in self.needed if one.crate == "std"}
        usual = {f"◌{sign}◌" for sign in "+ * < ≤".split()}
        built_in = {"◌×◌", "¬", "⊥"}
        explained = [word for row in promise.LIBRARY for word in row.split()]
        self.assertEqual(sorted(named - usual | built_in), sorted(explained))


if __name__ == "__main__":
    unittest.main()
