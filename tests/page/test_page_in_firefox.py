"""The page in a headless Firefox, from 113 on: verdicts, and the colours of the picture."""

import shutil
import subprocess
import sys
import tempfile
import unittest
from pathlib import Path

import firefox
from driven import until
from program import ROOT
from steps import StepsTest
from test_calls import EXAMPLES, PAGE, RT, make_page

sys.path[:0] = [str(ROOT / "bench")]
import bench  # noqa: E402

# Stations, sets and targets of a wide station, for print.
WIDE = (1, 40, 30)


class PageInFirefoxTest(StepsTest):
    @classmethod
    def setUpClass(cls):
        super().setUpClass()
        if not firefox.firefox():
            raise unittest.SkipTest("no Firefox is found")
        if not shutil.which(RT):
            raise unittest.SkipTest("the toolchain that makes the page is missing")
        make_page()

    def page(self):
        """The page in a browser of its own."""
        page = firefox.Page(PAGE)
        self.addCleanup(page.close)
        if int(page.version.split(".")[0]) < firefox.FIRST:
            self.skipTest(f"Firefox {page.version} is too old for the page")
        return page

    def test_each_step_has_its_verdict(self):
        self.each_step_has_its_verdict()

    def test_a_job_without_codes_is_named_and_compared_with_a_table_of_four_decimals(self):
        self.a_job_without_codes_is_named_and_compared_with_a_table_of_four_decimals()

    def test_the_picture_has_the_colours_of_the_style(self):
        page = self.page()
        page.give(EXAMPLES[0])
        until(lambda: page.text(".picture svg"))
        for selector, name, token in (("path", "stroke", "bar"), ("polygon", "fill", "greatest"), ("rect", "fill", "sunk")):
            shown, expected = page.js(
                f"const part = document.querySelector('.picture {selector}'), probe = document.createElement('i');"
                f"probe.style.color = 'var(--{token})'; document.body.append(probe);"
                f"return [getComputedStyle(part).{name}, getComputedStyle(probe).color]"
            )
            self.assertEqual(expected, shown)

    def pages(self, page):
        """The text of each page of paper."""
        to_text = ["pdftotext", "-layout", "-", "-"]
        said = subprocess.run(to_text, input=page.printed(), stdout=subprocess.PIPE, check=True).stdout.decode()
        return said.split("\f")[:-1]

    @unittest.skipUnless(shutil.which("pdftotext"), "no pdftotext is found")
    def test_each_of_several_protocols_has_its_own_name_on_its_pages(self):
        page = self.page()
        page.drop(ROOT / "examples" / "station_p7.gsi", ROOT / "examples" / "station_s1.gsi")
        until(lambda: page.js("return document.querySelectorAll('details.results').length === 2"))
        page.js("for (const one of document.querySelectorAll('details.results')) one.open = true")
        until(lambda: page.js("return document.querySelectorAll('.results.filled').length === 2"))
        names = ["Protocol of sets: Station P7, station_p7.gsi", "Protocol of sets: Station S1, station_s1.gsi"]
        contents, *others = self.pages(page)
        self.assertEqual([0, 0], [contents.count(name) for name in names])
        found = [[name for name in names if name in one] for one in others]
        self.assertEqual([[name] for name in names], found)

    @unittest.skipUnless(shutil.which("pdftotext"), "no pdftotext is found")
    def test_the_protocol_of_a_usual_station_has_one_page(self):
        page = self.page()
        page.drop(*EXAMPLES[:2])
        until(lambda: page.text(".results.filled"))
        said, *others = self.pages(page)
        self.assertEqual([], others)
        for text in ("Protocol of sets: Station P7", "Residuals as a picture", "SHA-256 of the module inside"):
            self.assertIn(text, said)

    @unittest.skipUnless(shutil.which("pdftotext"), "no pdftotext is found")
    def test_each_page_of_paper_has_its_name_and_no_heading_stands_alone_at_its_end(self):
        folder = tempfile.TemporaryDirectory(prefix="page-")
        self.addCleanup(folder.cleanup)
        wide, page = Path(folder.name, "wide.gsi"), self.page()
        wide.write_text(bench.field_file(bench.Shape("wide", *WIDE)))
        page.drop(wide)
        until(lambda: page.text(".results.filled"))
        pages = [[line.strip() for line in one.splitlines() if line.strip()] for one in self.pages(page)]
        self.assertGreater(len(pages), 5)
        name = "Protocol of sets: Station S1, wide.gsi"
        for number, lines in enumerate(pages, 1):
            with self.subTest(page=number):
                self.assertIn(name, lines)
                left = [line for line in lines if line != name]
                self.assertNotIn(left[-1], ("Residuals", "Readings in both faces", "Residuals as a picture", "Adjusted directions"))


if __name__ == "__main__":
    unittest.main()
