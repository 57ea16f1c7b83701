"""Each fault that the program explains has its texts on the page, in each language."""

import json
import re
import unittest

from program import ROOT, TimedTest

REFUSALS = ROOT / "page" / "refusals"

# What the program explains: the first name of each fault stands here.
EXPLANATIONS = ROOT / "crates" / "station_explain" / "src" / "explanations.rt"
MEANT = ROOT / "crates" / "refusal_places" / "specs" / "Meant.antt"
EXPLAINED = re.compile(r'^ +names: &\["([\w ]+)"', re.MULTILINE)

# All names of a fault; the faults of which the page marks a word of the line, by the first of their
# words; and where the page's scripts name faults: they are asked for, or have something in a table.
NAMES = re.compile(r"names: &\[(.*?)\]", re.DOTALL)
OF_WORDS = re.compile(r'\(codes "([A-Z]\w+)(?: \d*)?"\) fault')
ASKED = re.compile(r"isOf\(\w+, '(\w+)'\)|fault === '(\w+)'|\b([A-Z][a-z]\w+): '\w+'")

# The languages, of which English says what a fault is in the words of the program; and the flag of
# what is done in a copy.
LANGUAGES = {"en": {"todo"}, "de": {"what", "todo"}, "fr": {"what", "todo"}}
BY_COPY = "isByCopy"

# What is longer is read by nobody: so many bytes say what a fault is, and what to do.
LONGEST = {"what": 110, "todo": 320}


class RefusalsTest(TimedTest):
    def setUp(self):
        self.texts = {path.stem: json.loads(path.read_text()) for path in REFUSALS.iterdir()}

    def test_each_fault_has_its_texts_in_each_language(self):
        names = EXPLAINED.findall(EXPLANATIONS.read_text())
        self.assertGreater(len(names), 70)
        self.assertEqual(sorted(LANGUAGES), sorted(self.texts))
        for language, parts in LANGUAGES.items():
            self.assertEqual(names, list(self.texts[language]))
            for name, texts in self.texts[language].items():
                with self.subTest(language=language, name=name):
                    self.assertEqual(parts, {*texts} - {BY_COPY})

    def test_each_fault_that_a_script_names_is_one(self):
        """Whose word of a line the page marks, after which it asks what no line tells, at which it
        proposes lines, or for which it says why a line can't be changed."""
        explained = "".join(NAMES.findall(EXPLANATIONS.read_text()))
        known = {name.split(" ")[0] for name in re.findall(r'"([\w ]+)"', explained)}
        marked = {*OF_WORDS.findall(MEANT.read_text())}
        self.assertLessEqual({"ReadTwice", "Hz", "WordTwice", "Word", "FirstWord"}, marked)
        scripts = "".join(path.read_text() for path in (ROOT / "page").glob("*.js"))
        asked = {name for names in ASKED.findall(scripts) for name in names if name}
        self.assertLessEqual({"ByTargets", "NoPoint", "ReadTwice"}, asked)
        self.assertEqual(set(), (asked | marked) - known)

    def test_each_text_is_short_and_whole_sentences(self):
        for language, faults in self.texts.items():
            for name, texts in faults.items():
                for part in LANGUAGES[language]:
                    with self.subTest(language=language, name=name, part=part):
                        self.assertLessEqual(len(texts[part]), LONGEST[part])
                        self.assertRegex(texts[part], r"^[A-ZÀ-Ü].*[.?]$")

    def test_a_copy_that_is_to_be_changed_is_one_in_each_language(self):
        """Where it stands the page says how: not of a copy that the program makes."""
        copies = {"en": " a copy", "de": r"\bKopie\b", "fr": r"\bcopie\b"}
        for language, word in copies.items():
            for name, texts in self.texts[language].items():
                with self.subTest(language=language, name=name):
                    is_told = bool(re.search(word, texts["todo"])) and name != "already there"
                    self.assertIs(True if is_told else None, texts.get(BY_COPY))


if __name__ == "__main__":
    unittest.main()
