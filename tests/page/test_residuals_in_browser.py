"""What examples/residuals.py writes, in a browser: what it shows, saves and prints; and the picture in
examples/ is the one that it saves now."""

import shutil
import subprocess
import sys
import tempfile
import unittest
from pathlib import Path
from xml.etree import ElementTree

import browser
from program import EXAMPLE, ROOT, TimedTest, answer_of
from worked import RESIDUALS

EXAMPLES = ROOT / "examples"
P7_FIELD, P7_PICTURE = EXAMPLES / "station_p7.gsi", EXAMPLES / "station_p7.svg"

PHONE = (360, 740)

# Speaks another language, and shows all anew.
SPEAK = """(() => {
  speak('%s');
  for (const id of ['shown', 'buttons']) document.getElementById(id).textContent = '';
  showResiduals('P7');
})()"""


class ResidualsInBrowserTest(TimedTest):
    @classmethod
    def setUpClass(cls):
        super().setUpClass()
        if not browser.browser():
            raise unittest.SkipTest("no Chromium is found")

    def setUp(self):
        folder = tempfile.TemporaryDirectory(prefix="residuals-")
        self.addCleanup(folder.cleanup)
        self.folder = Path(folder.name)

    def shown(self, field, name, **how):
        """The file that is written of a station, in a browser of its own."""
        status, rows, said = answer_of(["report", "--csv", field, name])
        self.assertEqual((0, b""), (status, said))
        script = [sys.executable, EXAMPLES / "residuals.py", name]
        path = self.folder / f"{name}.html"
        done = subprocess.run(script, input=rows, stdout=subprocess.PIPE, check=True)
        path.write_bytes(done.stdout)
        page = browser.Page(path, checks=False, **how)
        self.addCleanup(page.close)
        return page

    def test_it_shows_each_residual_as_it_was_printed_and_asks_for_nothing(self):
        page = self.shown(EXAMPLE, "S1")
        self.assertEqual("Residuals of station S1", page.text("h1"))
        self.assertEqual(["\u22120.005", "+0.005", "+0.005", "\u22120.005"], page.texts("td"))
        self.assertEqual(["Residuals by target", "Residuals by set"], page.texts(".picture svg > title"))
        self.assertEqual(RESIDUALS.decode(), page.text("#printed"))
        self.assertEqual(1, len(page.requests()))
        self.assertEqual([], page.complaints())
        with self.assertRaises(RuntimeError):
            page.js("fetch('https://example.org')")

    def test_the_picture_of_the_example_is_the_one_that_is_saved_now(self):
        for scheme in ("light", "dark"):
            page = self.shown(P7_FIELD, "P7", scheme=scheme)
            saved = page.saved("Save picture (SVG)", "P7_residuals.svg")
            self.assertEqual(P7_PICTURE.read_bytes(), saved)
        self.assertEqual("svg", ElementTree.fromstring(saved).tag.rpartition("}")[2])

    def test_it_speaks_each_language_of_the_page_on_a_phone_too(self):
        page = self.shown(P7_FIELD, "P7", width=PHONE[0], height=PHONE[1])
        for code, texts in page.js("TEXTS").items():
            page.js(SPEAK % code)
            with self.subTest(code):
                self.assertEqual(texts["residualsOf"].replace("{name}", "P7"), page.text("h1"))
                self.assertLessEqual(page.js("document.documentElement.scrollWidth"), PHONE[0])
        self.assertEqual([], page.complaints())

    @unittest.skipUnless(shutil.which("pdftotext"), "no pdftotext is found")
    def test_a_usual_station_is_printed_on_one_page(self):
        path = self.folder / "printed.pdf"
        path.write_bytes(self.shown(P7_FIELD, "P7").printed())
        to_text = ["pdftotext", "-layout", path, "-"]
        said = subprocess.run(to_text, capture_output=True, text=True, check=True).stdout
        self.assertEqual(1, said.count("\f"))
        greatest = "The diamond is the greatest: +0.320 mgon"
        for text in ("Residuals of station P7", "\u22120.298", greatest, "MAST"):
            self.assertIn(text, " ".join(said.split()))
        self.assertNotIn("Save picture", said)


if __name__ == "__main__":
    unittest.main()
