"""The page in a headless Chromium, as a user sees it: which text is shown of answers, refusals and
several files that were really dropped; what is saved and printed; where the picture has each
residual; that nothing is sent; phone, dark and light, keyboard, what a screen reader is told; that no
text lacks its translations; that a large file does not hold the window and can be stopped."""

import base64
import csv
import gzip
import hashlib
import json
import math
import re
import shutil
import subprocess
import sys
import tempfile
import unittest
from collections import Counter
from fractions import Fraction
from pathlib import Path
from xml.etree import ElementTree

import books
import browser
import model
from program import ROOT, TimedTest
from test_calls import PAGE, RT, make_page

sys.path[:0] = [str(ROOT / "bench"), str(ROOT / "tools"), str(ROOT / "tests" / "cli")]
import bench  # noqa: E402
import manuals  # noqa: E402
from test_copies import sights_of  # noqa: E402

EXAMPLES = ROOT / "examples"
FIELD, SHEET, TABLE = (EXAMPLES / f"station_s1{end}" for end in (".gsi", ".csv", "_directions.csv"))
P7_FIELD, P7_SHEET, P7_TABLE = (EXAMPLES / f"station_p7{end}" for end in (".gsi", ".csv", "_directions.csv"))
JOB = EXAMPLES / "job.gsi"
CASES = ROOT / "conformance" / "answered"

P7_LINE = "accepted P7: 4 sets, 6 targets, 22 directions, greatest residual 85967/1344"
P7_HEADLINE = "Accepted. Greatest residual 0.320 mgon, set 4, TOWER."
NOTHING_CHECKED = "Nothing was checked: this file has no sets."
NOTHING_NAMED = "Nothing was checked yet: the station needs a name."
NOTHING_RECOGNIZED = "Nothing was checked: the sets of this job are not recognized."
NOTHING_COUNTED = (
    "Nothing was checked yet: the sets were read target by target, and their number is needed."
)
COUNTED_OTHERWISE = (
    "Nothing was checked: the sets of this job are not as many as you stated, or have other targets."
)

# The directions of P7 as a controller shows them, with four decimals.
FOUR_DECIMALS = b"TOWER,0.0000\nP3,64.5213\nMAST,139.4045\nP8,212.7572\nCHURCH,278.8606\nP12,345.2092\n"

# A width and a height in pixels: a small screen's, and a phone's.
SCREEN, PHONE = (1366, 768), (360, 740)

# How many pixels the smallest letter has.
SMALLEST_LETTER = 11

# Stations, sets and targets of a large field file; the time of an answer to it, and the longest time
# for which the window is held meanwhile, in milliseconds, on a machine that is slow and busy;
# page/README.md has times that were measured.
LARGE, SOON, HELD = (400, 40, 10), 20_000, 1_500

# Stations, sets and targets of a file of many stations, one of these that is in sight, and the parts of
# lists that one slice of a drawing has at most.
MANY, NTH, SLICE = (400, 2, 5), 200, 40

# Stations, sets and targets of a wide station, for print.
WIDE = (1, 40, 30)

FILES = {"field": FIELD, "sheet": SHEET, "table": TABLE}
LAST_LINE = "410012+00000030\r\n"
TAB = "\N{SYMBOL FOR HORIZONTAL TABULATION}"
TAB_KEY, ENTER_KEY, ESCAPE_KEY = ("Tab", 9), ("Enter", 13, "\r"), ("Escape", 27)
MINUS = "\N{MINUS SIGN}"

# A fault of a file: of which kind it is, the old and the new text; and what is then shown: the refusal,
# the place that it names, and what is marked there.
FAULTS = [
    (
        ("field", "110004+0", "   \r\n110004X0"),
        "refused: block 4: Word 1",
        "Line 5 of fault.gsi, block 4",
        "110004X0000000B",
    ),
    (
        ("field", "25000010 22.102+30000000", "25000010 22.102+3000000\t"),
        "refused: block 5: Byte 47",
        "Line 5 of fault.gsi, block 5",
        TAB,
    ),
    (
        ("field", "25000010 22.102+30000000", "2500001X 22.102+30000000"),
        "refused: block 5: Hz Digits",
        "Line 5 of fault.gsi, block 5",
        "21.102+2500001X",
    ),
    (
        ("field", "25000010 22.102+30000000", "25100010 22.102+30000000"),
        "refused: block 5: TwoC",
        "Line 5 of fault.gsi, block 5",
        "21.102+25100010",
    ),
    (
        ("field", LAST_LINE, "410012+00000020 42....+00000003\r\n"),
        "refused: block 13: EmptySet",
        "The end of fault.gsi",
        None,
    ),
    (
        ("sheet", "obs,1,B,10000010,0", "\n\nobs,1,B,x,0"),
        "refused: sheet row 7: Number",
        "Row 7 of fault.csv",
        "obs,1,B,x,0",
    ),
    (
        ("sheet", "sheet,1,S1,4,", "sheet,1,S2,4,"),
        "refused: no station",
        "Row 1 of fault.csv",
        "sheet,1,S2,4,",
    ),
    (
        ("sheet", "obs,1,B,10000010,0", "obs,1,B,10000011,0"),
        "refused: kernel: ObsRow 2",
        "Row 7 of fault.csv, obs row 2",
        "obs,1,B,10000011,0",
    ),
    (
        ("sheet", "target,,B,40000024,", "target,,B,40000025,"),
        "refused: kernel: TargetSum 2",
        "Row 3 of fault.csv, target row 2",
        "target,,B,40000025,",
    ),
    (
        ("table", "B,50.000030", "C,50.000030"),
        "refused: table row 2: Unknown",
        "Row 2 of fault.csv",
        "C,50.000030",
    ),
    (
        ("table", "B,50.000030\n", ""),
        "refused: table: Missing 2",
        "Target 2 of station S1",
        "B",
    ),
]

# Files that hold no results, and what is said of each.
UNUSED = [
    ("notes.txt", b"as agreed by telephone\n", "neither a field file"),
    ("book.xlsx", b"PK\x03\x04", "a spreadsheet"),
    ("none.csv", b"", "empty"),
    ("unicode.txt", "A\t0,5\n".encode("utf-16"), "text in UTF-16"),
    ("report.pdf", b"%PDF-1.4\n1 0\n2 0\n", "neither a field file"),
    ("letter.txt", b"As agreed on the 12.3.\nP7, please, once more, in 2 sets\n", "neither a field file"),
    ("photo.jpg", b"\xff\xd8\xff\xe0\0\x10JFIF\0\x01,12", "neither a field file"),
]

# The paragraphs of an explanation that are the program's.
EXPLAINED = ".explanation details p"

# Every text of the page's own in brackets; what is a number, a name or the program's stands without.
BRACKETS = (
    "for (const [name, one] of Object.entries(TEXTS.en))"
    " TEXTS.en[name] = one.split('|').map(text => `\u27e6${text}\u27e7`).join('|');"
    "for (const one of Object.values(texts.en)) one.todo = `\u27e6${one.todo}\u27e7`;"
    " languages.onchange()"
)

# The texts that are seen and are in no brackets: not those of the program, of files and of numbers.
PLAIN_TEXTS = """(() => {
  const walk = document.createTreeWalker(document.body, NodeFilter.SHOW_TEXT), found = [];
  while (walk.nextNode()) {
    const node = walk.currentNode, parent = node.parentElement;
    if (parent.closest('script, style, noscript, pre, code, samp, [lang=en][translate=no], .name, tbody, option'))
      continue;
    if (!parent.checkVisibility()) continue;
    let left = node.data, before;
    do [before, left] = [left, left.replace(/\u27e6[^\u27e6\u27e7]*\u27e7/g, '')]; while (left !== before);
    if (/\\p{L}{2}/u.test(left)) found.push(left.trim());
  }
  return found;
})()"""

# The names that a screen reader is told and that are in no brackets, nor those of files.
PLAIN_LABELS = (
    "[...document.querySelectorAll('[aria-label]:not(:has(h2.name))')].map(one => one.getAttribute('aria-label'))"
    r".filter(label => !/\u27e6/.test(label))"
)

# Of the nth panel of the picture: the numbers of its axis, each with its place, and the places of its dots and
# of its diamonds, strip after strip.
PLACES = """(() => {
  const svg = document.querySelectorAll('.results .picture svg')[%d];
  const all = selector => [...svg.querySelectorAll(selector)];
  return [
    all('text[text-anchor=middle]').map(e => [e.textContent, Number(e.getAttribute('x'))]),
    all('path').flatMap(e => [...e.getAttribute('d').matchAll(/M([\\d.]+)/g)].map(found => Number(found[1]))),
    all('polygon').map(e => (e.points[0].x + e.points[2].x) / 2),
  ];
})()"""

# The texts of a panel of the picture that stand in each other, or outside of it.
OVERLAPS = """[...document.querySelectorAll('.results .picture svg')].flatMap(svg => {
  const all = [...svg.querySelectorAll('text')].map(e => [e.textContent, e.getBoundingClientRect()]);
  const { left, right } = svg.getBoundingClientRect();
  return all.filter(([, a], nth) => a.left < left || a.right > right || all.slice(nth + 1).some(([, b]) =>
    a.left < b.right && b.left < a.right && a.top + 3 < b.bottom && b.top + 3 < a.bottom)).map(([text]) => text);
})"""

# Of the card that the keyboard is in: what its head says, and where its top is.
IN_HAND = """(() => {
  const card = document.activeElement.closest('.card');
  return card && [card.querySelector('header').textContent, card.getBoundingClientRect().top];
})()"""

# The time for which the window did not answer at the longest.
WATCH = """{
  let last = performance.now();
  longest = 0;
  setInterval(() => {
    longest = Math.max(longest, performance.now() - last);
    last = performance.now();
  }, 20);
}"""


# How many cards and rows of their table each task puts into the page.
SLICES = """{
  slices = [];
  const isPart = one => one instanceof Element && one.matches('.card, #overview tbody tr');
  new MutationObserver(all => slices.push(all.flatMap(one => [...one.addedNodes]).filter(isPart).length))
    .observe($('main'), { childList: true, subtree: true });
}"""

# Stops the work once, when it comes to the file of a name.
STOP_AT = (
    "new MutationObserver((_, seen) => { if (!$('progress').hidden && $('progress-text').textContent.includes(%s))"
    " { seen.disconnect(); $('stop').onclick() } })"
    ".observe($('progress'), { subtree: true, childList: true, attributes: true })"
)


class PageInBrowserTest(TimedTest):
    maxDiff = None

    @classmethod
    def setUpClass(cls):
        super().setUpClass()
        if not browser.browser():
            raise unittest.SkipTest("no Chromium is found")
        if not shutil.which(RT):
            raise unittest.SkipTest("the toolchain that makes the page is missing")
        make_page()

    def setUp(self):
        folder = tempfile.TemporaryDirectory(prefix="page-")
        self.addCleanup(folder.cleanup)
        self.folder = Path(folder.name)

    def page(self, *files, size=SCREEN, scheme="light"):
        """The page in a browser of its own, that was handed these files."""
        page = browser.Page(PAGE, *size, scheme)
        self.addCleanup(page.close)
        if files:
            page.give(*files)
        return page

    def changed(self, page, button, *typed):
        """Has a line changed where a refusal stands: the reason, and a name, are typed before."""
        fields = "document.querySelectorAll('form.change input')"
        for nth, value in enumerate(typed):
            page.js(f"{fields}[{nth}].value = {json.dumps(value)}")
        with page.answered():
            page.press(button)

    def test_a_line_is_left_out_of_a_copy_with_a_reason_and_a_log(self):
        whole = FIELD.read_bytes()
        line = b"110004+0000000B 21.102+05000000 22.102+10000000\r\n"
        field = self.file("double.gsi", whole.replace(line, 2 * line))
        page = self.page(field)
        self.assertEqual("refused: block 5: FaceTwice", page.text(".answer samp"))
        page.press("Leave this line out")
        self.assertIn("reason", page.text("form.change [role=status]"))
        # What was said, and what is typed, stays where the card is drawn anew.
        page.js("languages.value = 'de'; languages.onchange()")
        page.settle()
        self.assertIn("Grund", page.text("form.change [role=status]"))
        typing = "[...document.querySelectorAll('form.change input')].map(one => one.value)"
        for nth, value in enumerate(("read twice", "CHURCH")):
            page.js(f"{{ const one = document.querySelectorAll('form.change input')[{nth}]; one.value = {json.dumps(value)}; one.oninput() }}")
        self.assertEqual("", page.text("form.change [role=status]"))
        page.js("languages.value = 'en'; languages.onchange()")
        page.fill("within", "0.5")
        self.assertEqual(["read twice", "CHURCH"], page.js(typing))
        self.changed(page, "Leave this line out", "read twice, book p. 3")
        said = "block 5 left out: read twice, book p. 3"
        self.assertEqual([f"{said} Take back"], page.texts(".changes li"))
        self.assertEqual(["Read without a fault: 2 sets, 2 targets, 4 directions."], page.texts(".headline"))
        digests = [hashlib.sha256(data).hexdigest() for data in (field.read_bytes(), whole)]
        names = ["double.gsi", "double_changed.gsi"]
        shown = [f"{name} SHA-256 {digest}" for name, digest in zip(names, digests)]
        self.assertEqual(shown, page.texts(".card .digests li"))
        self.assertEqual(whole, page.saved("Save the changed copy", "double_changed.gsi"))
        files = "".join(f"{digest}  {name}\n" for digest, name in zip(digests, names))
        log = f"{files}\n{said}\n< {line.decode().strip()}\n"
        self.assertEqual(log, page.saved("Save the log", "double_changed.gsi.log").decode())
        page.js("onbeforeprint()")
        self.assertIn(said, page.texts("#protocol .facts dd div"))
        with page.answered():
            page.press("Take back")
        self.assertEqual("refused: block 5: FaceTwice", page.text(".answer samp"))
        self.assertEqual(["double.gsi"], page.texts("#inputs .name"))
        self.assertEqual(["", ""], page.js(typing))
        self.assertEqual([], page.complaints())

    def test_a_point_is_renamed_in_a_copy_and_a_name_that_cannot_be_is_refused(self):
        whole = FIELD.read_bytes()
        field = self.file("umlaut.gsi", whole.replace(b"B ", b"\xfc ", 1))
        page = self.page(field)
        for name, said in [("CHURCH 23", "too long"), ("0B", "zero"), ("B\xfc", "cannot have this name")]:
            page.js("document.querySelectorAll('form.change input')[0].value = 'misspelled'")
            page.js(f"document.querySelectorAll('form.change input')[1].value = {json.dumps(name)}")
            page.press("Rename")
            page.wait(f"document.querySelector('form.change [role=status]').textContent.includes({json.dumps(said)})")
        # The names of the file are proposed, the nearest first.
        page.js("document.querySelectorAll('form.change input')[1].onfocus()")
        proposed = page.js("[...document.querySelectorAll('form.change option')].map(one => one.value)")
        self.assertEqual(["A", "B"], proposed)
        self.changed(page, "Rename", "misspelled", "B")
        self.assertEqual(["block 4, point renamed to B: misspelled Take back"], page.texts(".changes li"))
        self.assertEqual(whole, page.saved("Save the changed copy", "umlaut_changed.gsi"))
        self.assertEqual([], page.complaints())

    def test_a_last_set_that_was_broken_off_is_proposed_line_by_line_and_left_out(self):
        whole = P7_FIELD.read_bytes().splitlines(keepends=True)
        left, gone = b"".join(whole[:37]), whole[37:46]
        page = self.page(self.file("rain.gsi", left + b"".join(gone)))
        self.assertEqual("refused: block 47: OneFace", page.text(".answer samp"))
        self.assertIn("Proposed by the page, which is not proved", page.text(".proposal .where"))
        lines = [line.decode().strip() for line in gone]
        self.assertEqual(lines, page.texts(".proposal .content"))
        numbers = [str(nth) for nth in range(38, 47)]
        self.assertEqual(numbers, page.texts(".proposal .number"))
        button = "Leave out the last set"
        self.assertEqual([button], page.texts("form.change button"))
        page.press(button)
        self.assertIn("reason", page.text("form.change [role=status]"))
        self.changed(page, button, "rain, book p. 14")
        together = "blocks 38\u201346 left out, of the last set: rain, book p. 14"
        said = [f"block {nth} left out, of the last set: rain, book p. 14" for nth in numbers]
        each = [f"{one} Take back{line}" for one, line in zip(said, lines, strict=True)]
        self.assertEqual([f"{together} Take backLine by line"], page.texts(".changes > li"))
        page.js("document.querySelector('.changes summary').click()")
        page.wait("document.querySelector('.changes li li') !== null")
        self.assertEqual(each, page.texts(".changes li li"))
        self.assertEqual(["Read without a fault: 3 sets, 6 targets, 16 directions."], page.texts(".headline"))
        self.assertEqual(left, page.saved("Save the changed copy", "rain_changed.gsi"))
        log = page.saved("Save the log", "rain_changed.gsi.log").decode()
        for one, line in zip(said, lines, strict=True):
            self.assertIn(f"\n{one}\n< {line}\n", log)
        page.js("onbeforeprint()")
        self.assertIn(together, page.texts("#protocol .facts dd div"))
        with page.answered():
            page.js("document.querySelector('.changes li li button').click()")
        self.assertEqual([f"{together.replace('38', '39')} Take backLine by line"], page.texts(".changes > li"))
        self.assertEqual("refused: block 39: EmptySet", page.text(".answer samp"))
        with page.answered():
            page.press("Take back")
        self.assertEqual([["rain.gsi"], []], [page.texts("#inputs .name"), page.texts(".changes li")])
        self.assertEqual([], page.complaints())

    def test_closing_sights_are_proposed_beside_the_line_of_a_job_without_codes(self):
        page = self.page(self.file("closed.gsi", sights_of("|ABCAacbaABCAacba")))
        self.assertEqual("refused: block 9: mark: ReadTwice", page.text(".exact samp"))
        buttons = ["Leave this line out", "Rename", "Leave out the closing sights"]
        self.assertEqual(buttons, page.texts("form.change button"))
        self.assertEqual(["5", "9", "13", "17"], page.texts(".proposal .number"))
        self.changed(page, buttons[-1], "horizon closed")
        said = "blocks 5, 9, 13, 17 left out, closing sights: horizon closed "
        self.assertEqual([said], page.js("[...document.querySelectorAll('.changes > li')].map(one => one.firstChild.data)"))
        self.assertEqual(["read", "Station P7"], self.cards(page)[0][:2])
        self.assertEqual([], page.complaints())

    def test_sights_before_the_first_set_up_line_are_proposed_and_no_name_is_asked_for(self):
        """As those of a resection: a line further on names the station."""
        page = self.page(self.file("free.gsi", sights_of("ABab|ABCcbaABCcba")))
        self.assertEqual([["open", "free.gsi", NOTHING_RECOGNIZED]], self.cards(page))
        self.assertEqual("refused: block 1: mark: NoSetUp", page.text(".exact samp"))
        buttons = ["Leave this line out", "Rename", "Leave these readings out"]
        self.assertEqual(buttons, page.texts("#answers form button"))
        self.assertEqual(["1", "2", "3", "4"], page.texts(".proposal .number"))
        self.changed(page, buttons[-1], "resection")
        said = "blocks 1\u20134 left out, before the first set-up line: resection "
        self.assertEqual([said], page.js("[...document.querySelectorAll('.changes > li')].map(one => one.firstChild.data)"))
        self.assertEqual([["read", "Station P7", "Read without a fault: 2 sets, 3 targets, 6 directions."]], self.cards(page))
        self.assertEqual([], page.complaints())

    def test_what_else_was_changed_stays_and_lines_have_the_numbers_of_the_field_file(self):
        """A reading that was cut short, and then a last set that was broken off."""
        first, *others = sights_of("|ABCcbaABCc").splitlines(keepends=True)
        page = self.page(self.file("two.gsi", b"".join([first, others[0].replace(b"+1", b"+"), *others])))
        self.assertRegex(page.text(".exact samp"), "^refused: block 2: ")
        self.changed(page, "Leave this line out", "cut short")
        self.assertEqual("refused: block 11: mark: FaceMissing", page.text(".exact samp"))
        self.assertEqual(["9", "10", "11", "12"], page.texts(".proposal .number"))
        self.changed(page, "Leave out the last set", "rain")
        said = ["block 2 left out: cut short ", "blocks 9\u201312 left out, of the last set: rain "]
        self.assertEqual(said, page.js("[...document.querySelectorAll('.changes > li')].map(one => one.firstChild.data)"))
        self.assertEqual(["read", "Station P7"], self.cards(page)[0][:2])

    def test_the_log_says_where_it_cuts_a_line(self):
        reading = b"110001+0000000A 21.102+00000000 22.102+10000000"
        long = reading + 15_000 * b" "
        page = self.page(self.file("long.gsi", long + b"\n" + FIELD.read_bytes()))
        self.changed(page, "Leave this line out", "too long")
        log = page.saved("Save the log", "long_changed.gsi.log").decode()
        shown = long[:1024].decode()
        self.assertIn(f"\n< {shown} \u2026 (cut here: the line has {len(long)} bytes)\n", log)

    def test_a_changed_line_that_is_another_on_disk_is_no_longer_changed(self):
        """A line was put in above it."""
        field = self.file("wrong.gsi", FIELD.read_bytes().replace(b"25000010 22.102+30000000", b"2500001X 22.102+30000000"))
        page = self.page()
        page.drop(field)
        self.assertEqual("refused: block 5: Hz Digits", page.text(".answer samp"))
        self.changed(page, "Leave this line out", "a typing error")
        self.assertEqual(["block 5 left out: a typing error Take back"], page.texts(".changes li"))
        field.write_bytes(b"410000+00000005 42....+0000000X\r\n" + field.read_bytes())
        with page.answered():
            page.js("$('read-again').click()")
        self.assertEqual([[], ["wrong.gsi"]], [page.texts(".changes li"), page.texts("#inputs .name")])
        self.assertEqual("refused: block 6: Hz Digits", page.text(".answer samp"))

    def test_a_changed_line_stays_changed_only_where_it_is_still_the_same(self):
        """After the file was changed on disk and is read again: a line of the same number may be another."""
        line = b"110004+0000000B 21.102+05000000 22.102+10000000\r\n"
        twice = FIELD.read_bytes().replace(line, 2 * line)
        field, page = self.file("double.gsi", twice), self.page()
        page.drop(field)
        self.changed(page, "Leave this line out", "read twice")
        told = ["block 5 left out: read twice Take back"]
        self.assertEqual(told, page.texts(".changes li"))
        # What follows the line may change; lines above give it another number.
        for data, changes in [(twice + b"\r\n", told), (2 * b"410000+00000099\r\n" + twice, [])]:
            field.write_bytes(data)
            with page.answered():
                page.js("$('read-again').click()")
            self.assertEqual(changes, page.texts(".changes li"))
        self.assertEqual("refused: block 7: FaceTwice", page.text(".answer samp"))
        self.assertEqual(["double.gsi"], page.texts("#inputs .name"))
        self.assertEqual([], page.complaints())

    def file(self, name, data):
        path = self.folder / name
        path.write_bytes(data)
        return path

    def cards(self, page):
        """Of each card its kind, its title and its headlines."""
        return page.js(
            "[...document.querySelectorAll('.card')].map(card => [card.classList[1],"
            " card.querySelector('h2').textContent,"
            " ...[...card.querySelectorAll('.headline')].map(e => e.textContent)])"
        )

    def choose(self, page, file, place):
        """Chooses the station of a sheet or a table in the list of files."""
        with page.answered():
            page.js(
                "{ const item = [...document.querySelectorAll('#inputs li')]"
                f".find(one => one.querySelector('.name').textContent === {json.dumps(file)});"
                " const s = item.querySelector('select.station');"
                f" s.value = [...s.options].find(one => one.textContent === {json.dumps(place)}).value; s.onchange() }}"
            )

    # ------------------------------------------------------------ answers

    def test_the_answer_comes_first_and_nothing_is_sent(self):
        page = self.page(P7_FIELD, P7_SHEET)
        self.assertEqual([["good", "Station P7", P7_HEADLINE]], self.cards(page))
        self.assertLess(page.js("document.querySelector('.headline').getBoundingClientRect().top"), 320)
        self.assertEqual(f"Station P7: {P7_HEADLINE}", page.text("#verdict"))
        self.assertEqual(P7_LINE, page.text(".exact samp"))
        command = "station_check check --residual 10mgon station_p7.gsi station_p7.csv"
        self.assertEqual(command, page.text(".exact code"))
        digest = hashlib.sha256(P7_FIELD.read_bytes()).hexdigest()
        self.assertIn(digest, page.text(".digests"))
        self.assertEqual([PAGE.as_uri()], [url for url in page.requests() if not url.startswith("blob:")])
        with self.assertRaises(RuntimeError):
            page.js("fetch('https://example.org')")
        self.assertEqual("refused", page.js(
            "new Promise(told => { const script = new Blob([`fetch('https://example.org')"
            ".then(() => postMessage('sent'), () => postMessage('refused'))`]);"
            " new Worker(URL.createObjectURL(script)).onmessage = event => told(event.data) })"
        ))

    def test_the_console_stays_empty(self):
        page = self.page(self.plain())
        self.state_name(page, "P7")
        page.give(P7_FIELD, P7_SHEET, self.file("four.csv", FOUR_DECIMALS), self.file(*UNUSED[0][:2]))
        page.fill("two-c", "0.07")
        page.fill("two-c", "x")
        page.fill("two-c", "")
        page.js("onbeforeprint()")
        page.empty()
        self.assertEqual([], page.complaints())

    def test_results_have_targets_as_rows_and_sets_as_columns(self):
        page = self.page(P7_FIELD, P7_SHEET)
        rows = page.js(
            "[...document.querySelectorAll('.results table')].map(table => [...table.rows]"
            ".map(row => [...row.cells].map(cell => cell.textContent)))"
        )
        directions, residuals, two_c, two_i = rows
        self.assertEqual(["Target", "Direction", "Sets"], directions[0])
        self.assertEqual(["MAST", "139.404538", "3 of 4"], directions[3])
        self.assertEqual(["Target", "Set 1", "Set 2", "Set 3", "Set 4"], residuals[0])
        self.assertEqual(["TOWER", "\u22120.134", "\u22120.170", "\u22120.016", "+0.320"], residuals[1])
        self.assertEqual(["CHURCH", "\u22120.113", "\u00d7", "\u22120.159", "+0.272"], residuals[5])
        self.assertEqual(["MAST", "+1.25", "+0.91", "\u00d7", "+2.16"], two_c[3])
        self.assertEqual(["CHURCH", "+1.08", "\u00d7", "+0.93", "0.00"], two_i[5])
        self.assertEqual(["+0.320", "+2.16", "+1.67"], page.texts("td.greatest"))
        # The longest bar is that of the greatest residual.
        parts = page.js("[...document.querySelectorAll('.bar')].map(bar => Number(bar.style.getPropertyValue('--part')))")
        self.assertEqual((22, 1, 1), (len(parts), max(parts), parts.count(1)))

    def test_residuals_need_no_sheet(self):
        """Whether every set has every target or not."""
        page = self.page(P7_FIELD)
        self.assertEqual(["read", "Station P7"], self.cards(page)[0][:2])
        self.assertIn("Not compared: add your program\u2019s table of directions", page.text(".card"))
        self.assertEqual(["+0.320"], page.texts(".bars td.greatest"))
        alone = page.texts(".bars td")
        page.give(P7_SHEET)
        self.assertEqual(alone, page.texts(".bars td"))

    def test_the_standard_deviation_is_shown_with_its_degrees_of_freedom(self):
        rows = [row.split(",") for row in P7_SHEET.read_text().splitlines()]
        targets, sets = ({row[at]: int(row[3]) for row in rows if row[0] == kind} for kind, at in (("target", 2), ("set", 1)))
        seen = [row for row in rows if row[0] == "obs"]
        turned = [int(value) + 80_000_000 * int(turns) for _, _, _, value, turns in seen]
        residuals = [
            (Fraction(targets[row[2]] - sets[row[1]], int(rows[0][3])) - value) / 200 for row, value in zip(seen, turned)
        ]
        degrees = len(seen) - len(targets) - len(sets) + 1
        squares = sum(one**2 for one in residuals)
        deviation = math.sqrt(squares / degrees)
        page = self.page(P7_FIELD)
        said = f"Standard deviation of one two-face direction: {deviation:.3f} mgon, {degrees} degrees of freedom."
        said += f" Sum of squares [vv]: {float(squares):.6f} mgon\xb2."
        self.assertIn(said, page.texts(".results .quiet"))
        # Where each set has each target, that of each adjusted direction stands there too.
        page.give(FIELD)
        adjusted = [one for one in page.texts(".results .quiet") if "of each adjusted direction" in one]
        self.assertEqual(1, len(adjusted), adjusted)
        report = page.saved("Save report (TXT)", "P7_report.txt").decode()
        self.assertIn("Field file            station_p7.gsi\n", report)
        self.assertIn(f"\nStandard deviation    {deviation:.3f} mgon, of one two-face direction\n", report)

    def test_what_face_differences_say_together_is_shown(self):
        """Below their tables, and on paper below the readings."""
        page = self.page(P7_FIELD)
        tables = page.js(
            "[...document.querySelectorAll('.results table')].slice(2).map(table => [...table.querySelectorAll('td')]"
            ".map(cell => cell.textContent.replace('\u2212', '-')).filter(cell => cell !== '\u00d7'))"
        )
        said = []
        for name, error, cells in zip(("2c", "2i"), ("collimation", "index"), tables):
            numbers = [Fraction(cell) for cell in cells]
            mean = sum(numbers) / len(numbers)
            of_all, half = (math.floor(100 * one + Fraction(1, 2)) / 100 for one in (mean, mean / 2))
            spread = float(max(numbers) - min(numbers))
            text = f"{name}: mean {of_all:+.2f}, half of it {half:+.2f} ({error} error), spread {spread:.2f}."
            said.append(text.replace("-", "\u2212"))
        self.assertEqual((2, 22), (len(tables), len(tables[0])))
        self.assertEqual(said, [one for one in page.texts(".results .quiet") if "spread" in one])
        page.js("onbeforeprint()")
        self.assertIn(" ".join(said), page.texts("#protocol .quiet"))

    def test_where_there_is_no_adjustment_it_is_said_once(self):
        case = ROOT / "conformance" / "refused" / "adjustment" / "fault_adjust_residual_for_report_rows"
        line = (case / "stderr").read_text().splitlines()[0]
        page = self.page(case / "field.gsi")
        self.assertEqual([line], page.texts(".results samp"))
        self.assertEqual(["Adjusted directions", "Face differences (2c, 2i)"], page.texts(".results h3"))
        self.assertEqual([], page.texts(".picture"))
        for button in ("Save residuals (CSV)", "Save picture (SVG)"):
            self.assertNotIn(button, page.texts("button"))

    # ------------------------------------------------------------ the picture of residuals

    def strips(self, page):
        """Of each panel of the picture its name, and of each strip its name and its greatest residual."""
        return page.js(
            "[...document.querySelectorAll('.results .picture svg')].map(svg => [svg.querySelector('title').textContent,"
            " Object.fromEntries([...svg.querySelectorAll('.name')].map(name => [name.textContent,"
            " name.nextElementSibling.textContent]))])"
        )

    def residuals(self, page):
        """The residuals that are saved: of each its set, its target and its size, as it is written."""
        saved = page.saved("Save residuals (CSV)", "P7_residuals.csv").decode().splitlines()
        return [(row["set"], row["target"], row["residual"]) for row in csv.DictReader(saved)]

    def test_the_picture_has_a_strip_for_each_target_and_each_set(self):
        page = self.page()
        page.drop(P7_FIELD)
        rows, expected = self.residuals(page), []
        for title, key in (("Residuals by target", 1), ("Residuals by set", 0)):
            strips = {}
            for row in rows:
                strips[row[key]] = max(strips.get(row[key], "0"), row[2], key=lambda one: abs(float(one)))
            signed = {name: one.replace("-", MINUS) if one[0] == "-" else f"+{one}" for name, one in strips.items()}
            expected.append([title, signed])
        self.assertEqual(expected, self.strips(page))
        said = "The diamond is the greatest: +0.320 mgon, set 4, TOWER."
        self.assertTrue(page.text(".across .caption").endswith(said))

    def test_each_residual_of_the_picture_has_its_place_on_the_axis(self):
        page = self.page(P7_FIELD)
        rows = self.residuals(page)
        for nth, (title, strips) in enumerate(self.strips(page)):
            with self.subTest(title):
                axis, dots, diamonds = page.js(PLACES % nth)
                self.assertEqual([f"{MINUS}0.4", f"{MINUS}0.2", "0", "+0.2", "+0.4"], [label for label, _ in axis])
                (_, zero), (_, end) = axis[2], axis[4]
                for place, (_, x) in zip((-2, -1, 0, 1, 2), axis):
                    self.assertAlmostEqual(zero + place * (end - zero) / 2, x, delta=0.02)
                self.assertGreater(end, zero)
                ordered = sorted(rows, key=lambda row: list(strips).index(row[1 - nth]))
                places = [(residual, zero + float(residual) / 0.4 * (end - zero)) for _, _, residual in ordered]
                for is_greatest, drawn in ((False, dots), (True, diamonds)):
                    expected = [x for residual, x in places if (residual == "0.320") == is_greatest]
                    self.assertEqual(len(expected), len(drawn))
                    for x, found in zip(expected, drawn):
                        self.assertAlmostEqual(x, found, delta=0.02)

    def test_each_dot_says_which_it_is_and_bands_show_the_standard_deviation(self):
        page = self.page(P7_FIELD)
        told = page.js("[...document.querySelector('.results .picture svg').querySelectorAll('path title, polygon title')].map(one => one.textContent)")
        signed = [one.replace("-", MINUS) if one[0] == "-" else f"+{one}" for _, _, one in self.residuals(page)]
        labels = [f"set {number}, target {target}" for number, target, _ in self.residuals(page)]
        self.assertEqual(sorted(f"{label}: {one} mgon" for label, one in zip(labels, signed)), sorted(told))
        # The axis ends at 0.4 mgon: so far reach three standard deviations of 0.211.
        axis, _, _ = page.js(PLACES % 0)
        (_, zero), (_, right) = axis[2], axis[4]
        bands = page.js(
            "[...document.querySelector('.results .picture svg').querySelectorAll('rect[fill-opacity]')]"
            ".map(one => [one.x.baseVal.value, one.x.baseVal.value + one.width.baseVal.value])"
        )
        part = (right - zero) * 0.211 / 0.4
        for (start, end), half in zip(bands, (right - zero, part), strict=True):
            self.assertAlmostEqual(zero - half, start, delta=0.05)
            self.assertAlmostEqual(zero + half, end, delta=0.05)
        self.assertIn("Bands: standard deviation s = 0.211, and 3 s.", page.text(".across .caption"))

    def test_an_axis_has_round_steps_up_to_a_round_end(self):
        """The end is the same in each panel, the steps are as many as there is room for."""
        page = self.page()
        for greatest, end, steps in [
            (0, 10, {1: 10, 2: 5, 9: 2}), (11, 15, {1: 15, 2: 15, 3: 5}), (320, 400, {0: 400, 1: 400, 3: 200, 4: 100}),
            (544, 600, {1: 600, 2: 300, 3: 200, 5: 200, 6: 100}), (801, 1_000, {2: 500, 4: 500, 5: 200}), (10_000, 10_000, {5: 2_000}),
        ]:
            self.assertEqual(end, page.js(f"endOf({greatest})"))
            for most, step in steps.items():
                self.assertEqual(step, page.js(f"stepTo({end}, {most})"), (end, most))

    def test_the_picture_is_told_to_those_who_cannot_see_it(self):
        page = self.page(P7_FIELD)
        nodes = page.call("Accessibility.getFullAXTree")["nodes"]
        images = [node for node in nodes if node.get("role", {}).get("value") == "image"]
        self.assertEqual(["Residuals by target", "Residuals by set"], [node["name"]["value"] for node in images])
        for node in images:
            self.assertEqual(page.text(".across .caption"), node["description"]["value"])

    def test_the_picture_is_drawn_for_the_room_that_there_is(self):
        page = self.page(P7_FIELD)
        widths = "[...document.querySelectorAll('.results .picture svg')].map(e => [e.viewBox.baseVal.width, e.getBoundingClientRect().width])"
        wide = page.js(widths)
        page.call("Emulation.setDeviceMetricsOverride", width=PHONE[0], height=PHONE[1], deviceScaleFactor=1, mobile=False)
        page.wait(f"{widths}.every(([drawn]) => drawn < {PHONE[0]})")
        narrow = page.js(widths)
        self.assertTrue(all(drawn > PHONE[0] for drawn, _ in wide), wide)
        # It isn't scaled, so its letters are as large as they say.
        self.assertEqual([], [one for one in wide + narrow if abs(one[0] - one[1]) > 1])

    def test_no_letters_of_the_picture_stand_in_each_other(self):
        """Of the shortest names and the longest, with the longest numbers of an axis, in each language."""
        long = P7_FIELD.read_bytes().replace(b"00000000000TOWER", b"TOWER_OF_16_LETT")
        for size in (SCREEN, PHONE):
            page = self.page(FIELD, self.file("long.gsi", long), size=size)
            for code in page.js("Object.keys(LANGUAGES)"):
                page.js(f"languages.value = '{code}'; languages.onchange()")
                page.settle()
                page.wait("document.querySelectorAll('.results .picture svg').length === 4")
                with self.subTest(size=size, language=code):
                    self.assertEqual([], page.js(OVERLAPS))

    def test_many_strips_are_divided_so_that_each_axis_is_near(self):
        page = self.page(self.file("wide.gsi", bench.field_file(bench.Shape("wide", *WIDE)).encode()))
        titles = [(title, len(strips)) for title, strips in self.strips(page)]
        by_set = [("Residuals by set, 1 – 20", 20), ("Residuals by set, 21 – 40", 20)]
        self.assertEqual([("Residuals by target", WIDE[2]), *by_set], titles)

    def one_set(self):
        """The lines of a station up to the end of its first set, and its last one."""
        lines = FIELD.read_bytes().splitlines(True)
        second = next(nth for nth, line in enumerate(lines) if b"42....+00000002" in line)
        return lines[:second], lines[-1]

    def test_where_all_residuals_are_0_the_picture_says_so(self):
        first, last = self.one_set()
        again = [first[1].replace(b"42....+00000001", b"42....+00000002"), *first[2:]]
        page = self.page(self.file("equal.gsi", b"".join([*first, *again, last])))
        self.assertTrue(page.text(".across .caption").endswith(" All are 0.000 mgon."), page.text(".across .caption"))
        self.assertEqual(0, page.js("document.querySelectorAll('.results .picture polygon').length"))

    def test_residuals_that_are_0_for_want_of_redundancy_are_no_comfort(self):
        """Those of one set, and of two that have one target in common: no limit says anything of them."""
        first, last = self.one_set()
        other = b"".join([first[1].replace(b"42....+00000001", b"42....+00000002"), *first[2:]])
        bare = "No degree of freedom: the residuals say nothing of the accuracy."
        for more, said in [(b"", "One set: its residuals are 0 whatever was read."), (other.replace(b"0000000B", b"0000000C"), bare)]:
            page = self.page(self.file("free.gsi", b"".join([*first, more, last])), FIELD)
            card = ".card:first-child"
            self.assertEqual([said], page.texts(f"{card} > p:not([class])")[:1])
            page.js("document.querySelectorAll('details.results').forEach(one => { one.open = true })")
            page.settle()
            self.assertIn(bare, page.texts(f"{card} .results .quiet"))
            self.assertEqual([[], []], [page.texts(f"{card} {part}") for part in (".bars", ".picture")])
            self.assertEqual(["\u2013", "\u2013"], page.texts("#overview tr:first-child td")[1:3])
            page.js("onbeforeprint()")
            self.assertIn(said, page.texts("#protocol .said"))
            self.assertEqual(1, len(page.texts("#protocol .picture")))
        rows = ["sheet,1,S1,1,", "target,,A,0,", "target,,B,10000004,", "target,,C,10000004,", "set,1,,-6,", "set,2,,-6,"]
        rows += ["obs,1,A,6,0", "obs,1,B,10000010,0", "obs,2,A,6,0", "obs,2,C,10000010,0"]
        page.empty()
        page.give(self.folder / "free.gsi", self.file("free.csv", "\n".join([*rows, ""]).encode()))
        self.assertEqual([f"Accepted. All residuals are 0.000 mgon. {bare}"], page.texts(".headline"))
        self.assertNotIn("Save picture (SVG)", page.texts("button"))

    def test_the_saved_picture_stands_alone_and_is_light(self):
        saved = [
            self.page(P7_FIELD, scheme=scheme).saved("Save picture (SVG)", "P7_residuals.svg").decode()
            for scheme in ("light", "dark")
        ]
        self.assertEqual(*saved)
        svg = ElementTree.fromstring(saved[0].encode())
        parts = list(svg.iter())
        self.assertEqual({"svg", "title", "desc", "rect", "text", "g", "line", "path", "polygon"}, {one.tag.rpartition("}")[2] for one in parts})
        # All its colours and fonts are in it.
        self.assertEqual([], [one for one in re.findall(r'="([^"]*)"', saved[0]) if re.search(r"var\(|url\(|light-dark", one)])
        self.assertEqual({"rgb"}, {value.partition("(")[0] for one in parts for name, value in one.items() if name in ("fill", "stroke") and value != "none"})
        self.assertEqual("system-ui, sans-serif", svg.get("font-family"))
        texts = [one.text for one in parts if one.tag.endswith("}text")]
        digest = hashlib.sha256(P7_FIELD.read_bytes()).hexdigest()
        for said in ("Residuals of station P7", P7_FIELD.name, f"SHA-256 {digest}", "MAST", "+0.320"):
            self.assertIn(said, texts)
        # Nothing stands outside of it.
        page = browser.Page(self.file("saved.svg", saved[0].encode()), checks=False)
        self.addCleanup(page.close)
        self.assertEqual([], page.js(
            "[...document.querySelectorAll('text')].filter(e => { const box = e.getBoundingClientRect(), all = document"
            ".documentElement.getBoundingClientRect(); return box.left < all.left || box.right > all.right ||"
            " box.bottom > all.bottom }).map(e => e.textContent)"
        ))

    # ------------------------------------------------------------ jobs without codes

    def plain(self):
        """The field file of P7 as an instrument's own program for sets writes it: without codes."""
        lines = P7_FIELD.read_bytes().splitlines(True)
        return self.file("plain.gsi", b"".join(line for line in lines if not line.startswith(b"*41")))

    def rain(self):
        """A job without codes that was broken off within a set."""
        return self.file("rain.gsi", b"".join(JOB.read_bytes().splitlines(True)[:43]))

    def state_name(self, page, name):
        """States the name of a station where it is asked for."""
        with page.answered():
            page.js(
                f"document.querySelector('.card input').value = {json.dumps(name)};"
                " document.querySelector('.card form').requestSubmit()"
            )

    def test_a_job_without_codes_is_marked_and_says_what_it_recognized(self):
        page = self.page(self.plain())
        self.assertIn("no line of it names the station", page.text(".card"))
        self.state_name(page, "P7")
        self.assertEqual(["read", "Station P7"], self.cards(page)[0][:2])
        recognized = "Station P7: 4 sets, 6 targets, from TOWER to P12. 1 reading before the sets and 0 after them stay outside."
        self.assertEqual(recognized, page.text(".marked p:nth-child(2)"))
        # What was recognized stands before the answer.
        page.give(self.file("plain.csv", P7_SHEET.read_bytes()))
        self.assertEqual([["good", "Station P7", P7_HEADLINE]], self.cards(page))
        self.assertTrue(page.js(
            "document.querySelector('.marked').compareDocumentPosition(document.querySelector('.headline')) & 4"
        ))
        copy = page.saved("Save the copy with codes", "plain_marked.gsi")
        kept = [line for line in copy.splitlines(True) if not line.lstrip(b"*").startswith(b"41")]
        self.assertEqual((self.folder / "plain.gsi").read_bytes(), b"".join(kept))
        # The protocol says so, and has both files with their digests.
        page.js("onbeforeprint()")
        facts = page.text("#protocol .facts")
        command = "station_check mark --station P7 plain.gsi plain_marked.gsi"
        digests = [hashlib.sha256(data).hexdigest() for data in ((self.folder / "plain.gsi").read_bytes(), copy)]
        for said in [recognized, command, *digests]:
            self.assertIn(said, facts)
        # Another name may be stated: then the sheet is of no station.
        self.state_name(page, "P70")
        self.assertEqual([["bad", "plain.csv"], ["read", "Station P70"]], [card[:2] for card in self.cards(page)])

    def test_a_protocol_tells_what_the_file_recorded_of_instrument_and_time(self):
        first, others = P7_FIELD.read_bytes().split(b"\n", 1)
        words = b" 12....+0000000000345678 17....+0000000001022026"
        page = self.page(self.file("recorded.gsi", first.rstrip() + words + b"\n" + others))
        page.js("onbeforeprint()")
        said = page.texts("#protocol .facts dd div samp")
        lines = ["12 serial number    0000000000345678", "17 date             0000000001022026"]
        self.assertEqual(lines, [line for line in said if line[:2] in ("12", "17")])
        page.js("languages.value = 'de'; languages.onchange()")
        german = "[...document.querySelectorAll('#protocol samp')].some(one => one.textContent.startsWith('12 Serien'))"
        self.assertTrue(page.wait(f"(() => {{ onbeforeprint(); return {german} }})()"))

    def test_each_station_of_a_job_is_recognized_by_its_set_up_line(self):
        detail = b"*110062+00000000000000P8 88..10+0000000000001500\n*110063+00000000000000P7 21.322"
        detail += b"+0000000000000023 22.322+0000000009987405\n"
        page = self.page(self.file("job.gsi", JOB.read_bytes() + detail))
        self.assertEqual([("read", "Station P7"), ("read", "Station P9")], [tuple(card[:2]) for card in self.cards(page)])
        self.assertEqual([[
            "Station P7: 4 sets, 6 targets, from TOWER to P12. 1 reading before the sets and 3 after them stay outside.",
            "2 of 24 directions are missing.",
            "Station P8: no sets. Its 1 reading stays outside, and nothing of it was checked.",
        ], [
            "Station P9: 2 sets, 3 targets, from P7 to MAST. 1 reading before the sets and 0 after them stay outside.",
        ]], page.js(
            "[...document.querySelectorAll('.marked')].map(part => [...part.querySelectorAll('p')]"
            ".map(p => p.textContent).slice(1, -1))"
        ))
        self.assertEqual("2 read, not compared", page.text("#verdict"))

    def test_a_job_whose_sets_are_not_recognized_shows_where_and_what_to_do(self):
        page = self.page(self.rain())
        self.assertEqual([["open", "rain.gsi", NOTHING_RECOGNIZED]], self.cards(page))
        self.assertEqual("open", page.js("$('verdict').className.split(' ')[0]"))
        self.assertRegex(page.text(".exact samp"), r"^refused: block \d+: mark: \w+$")
        self.assertTrue(page.text(".where").startswith("Line "), page.text(".where"))
        self.assertTrue(page.texts(EXPLAINED)[-1].startswith("What to do: "))
        # Who has the page alone has no script of the program's.
        self.assertTrue(page.text(".todo").startswith("What to do: Compare with the field book."), page.text(".todo"))
        self.assertIn("change in a copy in a text editor", page.text(".explanation .quiet"))

    def state_numbers(self, page, station, *numbers, each=False):
        """States how many sets were read to the end at a station, and how many targets they have; or the
        same of each that needs it."""
        form = f"form[aria-label='Sets and targets of {station}']" if station else "form:has(input[type=number])"
        with page.answered():
            page.js(
                f"(form => {{ [...form.querySelectorAll('input[type=number]')].forEach((input, nth) =>"
                f" input.value = {json.dumps(numbers)}[nth] ?? '');"
                f" if ({json.dumps(each)}) form.querySelector('input[type=checkbox]').checked = true;"
                f" form.requestSubmit() }})(document.querySelector({json.dumps(f'.card {form}')}))"
            )

    def test_the_number_of_sets_is_asked_at_each_station_that_was_read_target_by_target(self):
        job = (CASES / "mark" / "mark_of_stated_sets_at_two_stations" / "field.gsi").read_bytes()
        page = self.page(self.file("targets.gsi", job))
        self.assertEqual([["open", "targets.gsi", NOTHING_COUNTED]], self.cards(page))
        self.assertEqual("refused: block 2: mark: ByTargets", page.text(".exact samp"))
        labels = "[...document.querySelectorAll('.card form')].map(form => form.getAttribute('aria-label'))"
        self.assertEqual(["Sets and targets of P1", "Sets and targets of P3"], page.js(labels))
        # The number that would be found is not told.
        self.assertNotIn("Station P1: 2 sets", page.text(".card"))
        page.give(self.file("targets.P1.csv", b"A,0\nB,0\n"))
        self.assertIn("Checked as soon as the number of sets is stated", page.text(".card"))
        page.empty()
        page.give(self.folder / "targets.gsi")
        self.state_numbers(page, "P1", 3)
        self.assertEqual([["open", "targets.gsi", COUNTED_OTHERWISE]], self.cards(page))
        self.assertEqual("refused: block 2: mark: SetCount", page.text(".exact samp"))
        self.state_numbers(page, "P1", 2, 3)
        self.assertEqual("refused: block 2: mark: TargetCount", page.text(".exact samp"))
        # What was stated of one station is no answer for the other.
        self.state_numbers(page, "P1", 2, 2)
        self.assertEqual([["open", "targets.gsi", NOTHING_COUNTED]], self.cards(page))
        self.assertEqual(["Sets and targets of P3"], page.js(labels))
        self.state_numbers(page, "P3", 2)
        self.assertEqual([("read", "Station P1"), ("read", "Station P3")], [tuple(card[:2]) for card in self.cards(page)])
        command = "station_check mark --sets 'P1=2' --sets 'P3=2' --targets 'P1=2' targets.gsi targets_marked.gsi"
        self.assertIn(command, page.text(".marked pre"))
        # Other numbers may be stated.
        self.state_numbers(page, "P1", 2)
        self.assertIn(command.replace(" --targets 'P1=2'", ""), page.text(".marked pre"))

    def test_the_same_numbers_may_be_stated_of_each_station_that_needs_them(self):
        job = (CASES / "mark" / "mark_of_stated_sets_at_two_stations" / "field.gsi").read_bytes()
        page = self.page(self.file("targets.gsi", job))
        self.state_numbers(page, "P3", 2, each=True)
        self.assertEqual([("read", "Station P1"), ("read", "Station P3")], [tuple(card[:2]) for card in self.cards(page)])
        command = "station_check mark --sets 'P1=2' --sets 'P3=2' targets.gsi targets_marked.gsi"
        self.assertIn(command, page.text(".marked pre"))

    def test_the_number_of_the_only_station_is_stated_without_its_name(self):
        job = (CASES / "mark" / "mark_of_sets_by_targets" / "field.gsi").read_bytes()
        page = self.page(self.file("alone.gsi", job))
        # (a name would be stated in vain, as long as the number is missing)
        self.assertEqual([["open", "alone.gsi", NOTHING_COUNTED]], self.cards(page))
        self.assertEqual([0], page.js("[...document.querySelectorAll('.card input[type=checkbox]')].map(box => box.offsetWidth)"))
        self.state_numbers(page, None, 2)
        self.state_name(page, "S1")
        command = "station_check mark --station S1 --sets 2 alone.gsi alone_marked.gsi"
        self.assertIn(command, page.text(".marked pre"))

    def test_a_station_that_is_set_up_twice_is_asked_about(self):
        cases = {"mark_of_the_same_set_up": "The same set-up: its readings go on", "mark_of_a_name_that_is_set_up_again": "Another one, as P1-2"}
        for case, button in cases.items():
            job = (CASES / "mark" / case / "field.gsi").read_bytes()
            page = self.page(self.file(f"{case}.gsi", job))
            self.assertEqual(["open", f"{case}.gsi"], self.cards(page)[0][:2])
            self.assertTrue(page.text(".exact samp").endswith(": mark: StationTwice"), page.text(".exact samp"))
            buttons = page.texts(".card [role=group] button")[:2]
            self.assertEqual(["The same set-up: its readings go on", "Another one, as P1-2"], buttons)
            with page.answered():
                page.press(button)
            with self.subTest(case):
                self.assertEqual({"read"}, {card[0] for card in self.cards(page)})
                option = "--same-set-up" if button == buttons[0] else "--again"
                self.assertIn(f"station_check mark {option} {case}.gsi {case}_marked.gsi", page.text(".marked pre"))
                written = "Its set-up line was written again 1 time: this was taken as the same set-up."
                (self.assertIn if button == buttons[0] else self.assertNotIn)(written, page.text(".marked"))
            # It is asked again where the user wants it.
            with page.answered():
                page.press("Ask again about stations that are set up twice")
            self.assertTrue(page.text(".exact samp").endswith(": mark: StationTwice"), page.text(".exact samp"))

    def test_the_code_that_begins_stations_is_asked_for_where_none_is_named(self):
        job = (CASES / "mark" / "mark_of_stations_in_a_code" / "field.gsi").read_bytes()
        page = self.page(self.file("coded.gsi", job))
        with page.answered():
            page.js(
                "(form => { form.querySelector('input').value = '1'; form.requestSubmit() })"
                "([...document.querySelectorAll('.card form')].at(-1))"
            )
        self.assertEqual({"read"}, {card[0] for card in self.cards(page)})
        self.assertIn("station_check mark --station-code 1 coded.gsi coded_marked.gsi", page.text(".marked pre"))

    def test_stations_that_are_not_recognized_may_be_left_outside(self):
        job = (CASES / "mark" / "mark_with_others" / "field.gsi").read_bytes()
        page = self.page(self.file("others.gsi", job))
        self.assertEqual([["open", "others.gsi", NOTHING_RECOGNIZED]], self.cards(page))
        self.assertIn("Station P1: 1 set, 2 targets, from A to B. No reading stays outside.", page.text(".card"))
        told = "Station P2: not recognized, block 9: A target is read in one face only before the next set begins. Its 3 readings stay outside"
        self.assertIn(told, page.text(".card"))
        with page.answered():
            page.press("Leave the stations that are not recognized outside")
        self.assertEqual([("read", "Station P1"), ("read", "Station P3")], [tuple(card[:2]) for card in self.cards(page)])
        self.assertIn(told, page.text(".marked"))
        self.assertIn("station_check mark --others others.gsi others_marked.gsi", page.text(".marked pre"))
        with page.answered():
            page.press("Leave no station outside")
        self.assertEqual([["open", "others.gsi", NOTHING_RECOGNIZED]], self.cards(page))

    def test_no_name_is_asked_for_where_it_would_be_in_vain(self):
        degrees = self.plain().read_bytes().replace(b" 21.322", b" 21.324")
        page = self.page(self.file("degrees.gsi", degrees))
        self.assertEqual([["open", "degrees.gsi", NOTHING_RECOGNIZED]], self.cards(page))
        self.assertEqual(["An angle is not in gon with five decimals."], page.texts(".reason"))
        self.assertEqual([], page.texts(".card form:not(.change)"))
        self.assertIn("45 readings with directions stand outside of sets.", page.text(".card"))
        command = "station_check mark --station '?' degrees.gsi degrees_marked.gsi"
        self.assertEqual(["refused: block 1: Hz Unit", command], page.texts(".exact :is(samp, code)"))

    def test_a_name_that_no_station_can_have_is_asked_for_again(self):
        wrong = ["P\u00e47", "x" * 17]
        page = self.page(self.plain())
        for name in wrong:
            self.state_name(page, name)
            self.assertIn("A station cannot have this name", page.text(".card"))
            self.assertEqual([["open", "plain.gsi", NOTHING_NAMED]], self.cards(page))
        self.state_name(page, "P7")
        self.assertEqual(["read", "Station P7"], self.cards(page)[0][:2])

    def test_what_was_not_checked_is_never_green(self):
        page = self.page(self.plain())
        self.assertEqual([["open", "plain.gsi", NOTHING_NAMED]], self.cards(page))
        recognized = "Station ?: 4 sets, 6 targets, from TOWER to P12. 1 reading before the sets and 0 after them stay outside."
        self.assertIn(recognized, page.text(".card"))
        page.give(P7_SHEET)
        self.assertIn("Checked as soon as the station has its name: station_p7.csv.", page.text(".card"))
        page.empty()
        page.give(self.file("level.gsi", b"110001+000000P1 331.28+00123456\r\n"), P7_SHEET)
        self.assertEqual([["open", "level.gsi", NOTHING_CHECKED]], self.cards(page))
        self.assertIn("levelling", page.text(".card"))
        self.assertIn("Not checked, since the field file has no station: station_p7.csv.", page.text(".card"))
        page.empty()
        page.give(P7_SHEET)
        self.assertEqual("open", page.js("$('verdict').className"))
        for unsure in ("plain.gsi", "level.gsi"):
            page.empty()
            page.give(self.folder / unsure, FIELD, SHEET)
            self.assertEqual("1 to do; 1 computed rightly", page.text("#verdict"))
            self.assertEqual("open", page.js("$('verdict').className"))

    def test_a_refusal_shows_the_place_that_it_names(self):
        page = self.page()
        for (kind, old, new), *expected in FAULTS:
            text = FILES[kind].read_bytes().decode()
            self.assertEqual(1, text.count(old))
            fault = self.file(f"fault{FILES[kind].suffix}", text.replace(old, new).encode())
            page.give(*{fault, FIELD} if kind != "field" else {fault})
            with self.subTest(expected[0]):
                shown = [page.text(selector) for selector in (".exact samp", ".where", "mark")]
                self.assertEqual(expected, shown)
                refused = [card for card in self.cards(page) if card[0] == "bad"]
                self.assertRegex(refused[0][2], r"^Refused\. [A-Z][^:]*\.$")
                # What it means is shown as flowing text, without the line that is its sample.
                paragraphs = page.texts(EXPLAINED)
                self.assertTrue(paragraphs[-1].startswith("What to do: "))
                self.assertEqual(1, len(page.texts(".todo")))
                self.assertFalse(page.js("document.querySelector('.explanation details').open"))
                self.assertFalse([text for text in paragraphs if "\n" in text or text.startswith("refused:")])
            page.empty()

    def test_of_a_line_that_is_too_long_as_much_is_shown_as_a_line_may_have(self):
        reading = b"110001+0000000A 21.102+00000000 22.102+10000000"
        for blanks, line, marked in [(900, "refused: block 1: Byte 948", TAB), (15_000_000, "refused: block 1: LineTooLong", None)]:
            page = self.page(self.file("long.gsi", reading + blanks * b" " + b"\t\n"))
            self.assertEqual(line, page.text(".exact samp"))
            self.assertEqual(marked or reading.decode() + 977 * " ", page.text("mark"))

    def test_of_many_stations_a_choice_is_filled_when_it_is_turned_to(self):
        fields = [self.file(f"{nth}.gsi", FIELD.read_bytes()) for nth in range(21)]
        page = self.page(*fields, self.file("odd.csv", b"X,0\nY,1\n"))
        options = "document.querySelector('#inputs select.station').length"
        self.assertEqual(1, page.js(options))
        page.js("document.querySelector('#inputs select.station').focus()")
        self.assertEqual(22, page.js(options))
        self.choose(page, "odd.csv", "7.gsi: S1")
        self.assertEqual("refused: table row 1: Unknown", page.text(".exact samp"))
        self.assertEqual("7.gsi: S1", page.text("#inputs option:checked"))

    def test_on_a_phone_what_is_meant_is_in_sight(self):
        text = FIELD.read_text().replace("25000010 22.102+30000000", "25000010 22.102+3000000X")
        page = self.page(self.file("fault.gsi", text.encode()), size=PHONE)
        self.assertEqual("22.102+3000000X", page.text("mark"))
        in_sight = "(() => { const [a, b] = ['mark', '.lines'].map(e => document.querySelector(e).getBoundingClientRect());"
        self.assertTrue(page.wait(f"{in_sight} return b.left <= a.left && a.right <= b.right }})()"))
        self.assertGreater(page.js("document.querySelector('.lines').scrollLeft"), 0)

    def test_the_decimals_of_a_table_tell_its_limit_where_none_is_stated(self):
        page = self.page(P7_FIELD, self.file("four.csv", FOUR_DECIMALS))
        agrees = "Agrees. 6 targets within 0.025 mgon of the least-squares directions; the limit is 0.055 mgon."
        self.assertEqual([["good", "Station P7", agrees]], self.cards(page))
        self.assertEqual("station_check compare station_p7.gsi P7 four.csv", page.text(".exact code"))
        self.assertIn("tables within 0.01 mgon or as they are rounded", page.text("#in-force"))
        page.fill("within", "0.01")
        furthest = f"Furthest from the median of all differences: MAST {MINUS}0.038\xa0mgon."
        self.assertEqual([furthest], page.texts(".reason"))
        self.assertTrue(page.text(".todo").startswith("What to do: See below which target stands out"), page.text(".todo"))
        refused = "Refused. The directions are 0.025 mgon apart; the limit is 0.01 mgon."
        self.assertEqual([["bad", "Station P7", refused]], self.cards(page))
        self.assertEqual("station_check compare --within 0.01mgon station_p7.gsi P7 four.csv", page.text(".exact code"))
        self.assertIn("tables within 0.01 mgon", page.text("#in-force"))

    def test_the_differences_of_a_table_are_shown_by_target(self):
        other = P7_TABLE.read_text().replace("CHURCH,278.86059", "CHURCH,278.86065")
        page = self.page(P7_FIELD, self.file("one.csv", other.encode()))
        # The least-squares directions, as the sheet of the station has them exactly, in gon.
        rows = [row.split(",") for row in P7_SHEET.read_text().splitlines()]
        least = {row[2]: Fraction(int(row[3]), int(rows[0][3])) / 200_000 for row in rows if row[0] == "target"}
        stated = {name: Fraction(gon) for name, gon in csv.reader((self.folder / "one.csv").read_text().splitlines())}
        apart = {name: stated[name] - least[name] for name in least}
        middle = (max(apart.values()) + min(apart.values())) / 2
        expected = {name: float((one - middle) * 1000) for name, one in apart.items()}
        saved = page.saved("Save differences (CSV)", "one_differences.csv").decode().splitlines()
        self.assertEqual("target,stated,least squares,difference,from the median", saved[0])
        shown = {row[0]: float(row[3]) for row in csv.reader(saved[1:])}
        self.assertEqual(list(expected), list(shown))
        for name, value in expected.items():
            self.assertAlmostEqual(value, shown[name], delta=0.0006)
        self.assertEqual("Differences of one.csv", page.text(".results h3"))
        self.assertEqual(["+0.056"], page.texts(".results section:first-child td.greatest"))
        # Turned by nearly a full circle the differences are the same.
        turned = "".join(f"{name},{(float(gon) + 399.9) % 400:.5f}\n" for name, gon in csv.reader(other.splitlines()))
        page.empty()
        page.give(P7_FIELD, self.file("one.csv", turned.encode()))
        self.assertEqual(["+0.056"], page.texts(".results section:first-child td.greatest"))

    # ------------------------------------------------------------ the first screen

    def test_an_example_is_checked_at_a_click_as_files_that_are_dropped(self):
        page = self.page()
        with page.answered():
            page.press("Try an example")
        self.assertEqual([JOB.name, P7_TABLE.name], page.texts("#inputs .name"))
        agrees = "Agrees. 6 targets within 0.004 mgon of the least-squares directions; the limit is 0.01 mgon."
        cards = self.cards(page)
        self.assertEqual(["good", "Station P7", agrees], cards[0])
        self.assertEqual(["read", "Station P9"], cards[1][:2])
        # They are those of the examples, byte for byte, and their answers are the same.
        for path in (JOB, P7_TABLE):
            self.assertIn(hashlib.sha256(path.read_bytes()).hexdigest(), page.text("#answers"))
        dropped = self.page()
        dropped.drop(JOB, P7_TABLE)
        self.assertEqual(cards, self.cards(dropped))
        self.assertEqual(*(one.text("#answers") for one in (page, dropped)))
        self.assertFalse(page.js("$('try').checkVisibility()"))
        page.empty()
        self.assertTrue(page.js("$('try').checkVisibility()"))

    def test_the_words_of_the_page_stand_in_it_before_any_script(self):
        """In English; and who has no scripts is told so first."""
        page, html = self.page(), PAGE.read_text()
        self.assertEqual([], page.js(
            f"(html => [...new DOMParser().parseFromString(html, 'text/html').querySelectorAll('[data-text]')]"
            ".map(one => [one.textContent, text(one.dataset.text, { ...$('made').dataset })])"
            f".filter(([found, wanted]) => found !== wanted))({json.dumps(html)})"
        ))
        self.assertLess(html.index("<noscript>"), html.index('<header class="top">'))
        page.call("Emulation.setScriptExecutionDisabled", value=True)
        page.call("Page.reload")
        page.wait("document.readyState === 'complete'")
        seen = page.js("document.body.innerText")
        self.assertTrue(seen.startswith("This page needs JavaScript: open it in a browser. Nothing was checked."), seen)
        for said in ("Diese Seite braucht JavaScript", "Cette page a besoin", "A field file (GSI) alone", "About: "):
            self.assertIn(said, seen)
        self.assertEqual([], page.js(
            "[...document.querySelectorAll('button, input, select')].filter(one => one.checkVisibility()).map(one => one.id)"
        ))

    def test_on_a_phone_the_button_comes_first(self):
        page = self.page(size=PHONE)
        for code in page.js("Object.keys(LANGUAGES)"):
            page.js(f"languages.value = '{code}'; languages.onchange()")
            with self.subTest(code):
                tops = page.js(
                    "[...document.querySelectorAll('.add .button, .add p')].filter(one => one.checkVisibility())"
                    ".sort((a, b) => a.getBoundingClientRect().top - b.getBoundingClientRect().top).map(one => one.textContent)"
                )
                self.assertEqual(page.js("[text('choose'), text('tryExample'), text('dropKinds'), text('stays')]"), tops)
                self.assertLessEqual(page.js("document.documentElement.scrollWidth"), PHONE[0])

    def test_the_page_says_of_itself_what_is_proved_and_what_is_not(self):
        page = self.page()
        page.js("$('about').open = true")
        self.assertEqual(["What it does", "Proved", "Not proved", "By whom", "This very file"], page.texts("#about dt"))
        self.assertIn(f"sha256sum {PAGE.name}", page.text("#about"))
        self.assertEqual([], page.js(CONTRASTS))

    # ------------------------------------------------------------ files

    def test_files_are_sorted_by_what_they_hold_wherever_they_are_dropped(self):
        page = self.page()
        (self.folder / "week").mkdir()
        page.drop(*(self.file(name, data) for name, data, _ in UNUSED), self.folder / "week", P7_FIELD, P7_SHEET, P7_TABLE)
        kinds = dict(zip(page.texts("#inputs .name"), page.texts("#inputs .kind")))
        self.assertEqual("field file", kinds[P7_FIELD.name])
        self.assertEqual("sheet of P7", kinds[P7_SHEET.name])
        self.assertEqual("table of directions", kinds[P7_TABLE.name])
        self.assertEqual("Not used, from folders: week/.", page.text("#skipped"))
        for name, _, said in UNUSED:
            self.assertTrue(kinds[name].startswith("not used: ") and said in kinds[name], kinds[name])
        agrees = "Agrees. 6 targets within 0.004 mgon of the least-squares directions; the limit is 0.01 mgon."
        self.assertEqual([["good", "Station P7", P7_HEADLINE, agrees]], self.cards(page))

    def test_a_table_of_any_writing_is_known_as_one(self):
        """So that what is wrong in it is said by row, and not that it isn't used."""
        page = self.page()
        for text in ("A,0.5", "A;0,5", "A\t0.5", '"A","0.5"', "A   0.5", "A,0.5,", "A,0.5 gon", '"A","0.5gon"', "Ziel;Richtung\nA;0,5\n"):
            self.assertEqual("table", page.js(f"kindOf('a.txt', new TextEncoder().encode({json.dumps(text)}))"), text)
        titles = "Job 7\nDate 12.3.26\nZiel Richtung\n"
        printed = ("   4    P8 dir.    212.757150    212.757221\n", "| P8 | 212.757150 |\n", "P8 dir. 59-04-09.18\n")
        degrees = ("A;59 04 09.18\n", "A;59:04:09.18\n", "A;59\u00b0 04\u2032 09.18\u2033\n", "A,5.684341886080802e-14\n")
        for text in (f"{titles}P1 0.5\nP2 1.5\n", "P 1\t0,5\t0,3\n", "TOWER 0.5000 0.3\n", *printed, *degrees):
            self.assertEqual("table", page.js(f"kindOf('a.txt', new TextEncoder().encode({json.dumps(text)}))"), text)
        page.give(FIELD, self.file("sheet.csv", SHEET.read_bytes().replace(b",", b";")))
        self.assertEqual("sheet of S1", page.texts("#inputs .kind")[1])
        self.assertEqual("refused: sheet row 1: Fields", page.text(".exact samp"))
        page.empty()
        page.give(P7_FIELD, self.file("gon.csv", FOUR_DECIMALS.replace(b"\n", b" gon\n")))
        self.assertEqual("good", self.cards(page)[0][0])
        self.assertTrue(page.text(".columns").endswith("Units passed over: 6."), page.text(".columns"))

    def test_the_station_of_a_sheet_is_that_of_its_first_row_once_it_was_read(self):
        """Whatever it is checked with: that begins when no limit is wrong."""
        page = self.page(self.file("quoted.csv", b'\xef\xbb\xbf"sheet","1","P ""7"\r\ntarget,1\r\n'))
        self.assertEqual(['sheet of P "7'], page.texts("#inputs .kind"))
        page.empty()
        page.fill("two-c", "x")
        page.give(SHEET)
        self.assertEqual(["sheet"], page.texts("#inputs .kind"))
        page.fill("two-c", "20")
        self.assertEqual(["sheet of S1"], page.texts("#inputs .kind"))

    def test_it_is_told_by_which_columns_a_table_was_read(self):
        """Beside the answer, beside a refusal of a table that is apart, and on paper."""
        rows = [b"%d;%s;%s" % (nth, *row.split(b",")) for nth, row in enumerate(FOUR_DECIMALS.split(), 1)]
        table = b"Station P7\n\n" + b" gon\n".join(rows) + b" gon\nsum;;1240.6397 gon\n"
        for text, mood in [(table, "good"), (table.replace(b"278.8606", b"278.8616"), "bad")]:
            page = self.page(P7_FIELD, self.file("printed.txt", text))
            self.assertEqual([mood], [card[0] for card in self.cards(page)])
            _, said, told = model.compared(P7_FIELD.read_bytes(), b"P7", text)
            note, line = sorted((said + told).decode().splitlines(), key=lambda one: not one.startswith("note: "))
            self.assertEqual([line, note], page.texts(".answer .exact samp"))
            lefts = page.js("[...document.querySelectorAll('.exact dd')].map(one => one.getBoundingClientRect().left)")
            self.assertEqual(1, len(set(lefts)), lefts)
            read = (
                "Read: targets in column 2, directions in column 3. Rows passed over: 1 before the targets, 0 among them, "
                "1 after them. Units passed over: 6."
            )
            self.assertEqual([read], page.texts(".answer .columns"))
            printed = self.printed_text(page)
            self.assertIn(read, printed)
            self.assertIn(note, printed)
        # Of two columns nothing is told.
        page = self.page(P7_FIELD, P7_TABLE)
        self.assertEqual([], page.texts(".answer .columns"))
        self.assertEqual(1, len(page.texts(".answer .exact samp")))

    def test_columns_are_stated_where_more_fit(self):
        table = b"A;1;0\nB;2;50.00003\n"
        page = self.page(FIELD, self.file("columns.csv", table))
        refused = "refused: table: Columns 2 3"
        self.assertEqual(refused, page.text(".exact samp"))
        self.assertEqual("Columns 2 and 3 both fit.", page.text(".answer form span"))
        with page.answered():
            page.js(
                "{ const form = document.querySelector('.answer form'), [names, directions] = form.querySelectorAll('input');"
                " names.value = '1'; directions.value = '3'; form.requestSubmit() }"
            )
        form = model.TableForm(columns=(b"1", b"3"))
        _, said, told = model.compared(FIELD.read_bytes(), b"S1", table, form=form)
        self.assertEqual((said + told).decode().splitlines(), page.texts(".exact samp"))
        self.assertEqual("station_check compare --columns 1,3 station_s1.gsi S1 columns.csv", page.text(".exact code"))
        self.assertEqual(["1", "3"], page.js("[...document.querySelectorAll('.answer form input')].map(one => one.value)"))
        with page.answered():
            page.press("Find the columns")
        self.assertEqual([refused], page.texts(".exact samp"))

    def test_columns_are_stated_by_their_titles(self):
        """As the program takes them; the titles are proposed, and one that no column has is told of."""
        table = b"Ziel Nr;Soll;Hz\nA;1;0\nB;2;50.00003\n"
        page = self.page(FIELD, self.file("titled.csv", table))
        asked, submit = "[...document.querySelectorAll('.answer form input')]", "document.querySelector('.answer form').requestSubmit()"
        state = f"(([names, directions]) => {{ names.value = 'Ziel Nr'; directions.value = '%s'; directions.oninput(); names.oninput() }})({asked}); {submit}"
        page.js(state % "hz")
        page.wait("document.querySelector('.answer form [role=status]').textContent !== ''")
        self.assertEqual("No column of the table has the stated title. State the two columns by their numbers.", page.text(".answer form [role=status]"))
        self.assertEqual(["Ziel Nr", "hz"], page.js(f"{asked}.map(one => one.value)"))
        page.js(f"{asked}[1].onfocus()")
        self.assertEqual(["Ziel Nr", "Soll", "Hz"], page.js(f"[...{asked}[1].list.options].map(one => one.value)"))
        with page.answered():
            page.js(state % "Hz")
        _, said, told = model.compared(FIELD.read_bytes(), b"S1", table, form=model.TableForm(columns=(b"1", b"3")))
        self.assertEqual((said + told).decode().splitlines(), page.texts(".exact samp"))
        self.assertEqual("station_check compare --columns 1,3 station_s1.gsi S1 titled.csv", page.text(".exact code"))

    def test_the_unit_of_a_table_is_chosen_beside_it(self):
        stated = [(name, Fraction(gon) * 9 / 10) for name, gon in csv.reader(P7_TABLE.read_text().splitlines())]
        degrees = "".join(f"{name},{float(angle):.6f}\n" for name, angle in stated).encode()
        page = self.page(P7_FIELD, self.file("degrees.csv", degrees))
        self.assertTrue(page.text(".exact samp").startswith("refused: compare: Apart "), page.text(".exact samp"))
        self.assertEqual(["gon", "degrees (360\u00b0)", "degrees as D.MMSS"], page.texts("#inputs select.unit option"))
        for place, unit in [(1, "degrees"), (2, "dmmss"), (0, "gon")]:
            with page.answered():
                page.js(f"{{ const unit = document.querySelector('#inputs select.unit'); unit.selectedIndex = {place}; unit.onchange() }}")
            status, said, told = model.compared(P7_FIELD.read_bytes(), b"P7", degrees, form=model.TableForm(unit))
            with self.subTest(unit):
                self.assertEqual(["good" if status == 0 else "bad"], [card[0] for card in self.cards(page)])
                # The line of the verdict, and then the note, which names the unit in which it agrees.
                self.assertCountEqual((said + told).decode().splitlines(), page.texts(".exact samp"))
                option = "" if unit == "gon" else f"--{unit} "
                self.assertEqual(f"station_check compare {option}station_p7.gsi P7 degrees.csv", page.text(".exact code"))
                self.assertEqual(place, page.js("document.querySelector('#inputs select.unit').selectedIndex"))

    def test_what_belongs_together_is_found_by_name_and_by_station(self):
        page = self.page(P7_FIELD, FIELD, P7_TABLE, TABLE, P7_SHEET, SHEET)
        self.assertEqual([("good", "Station P7", 4), ("good", "Station S1", 4)], [
            (mood, title, 2 + len(said)) for mood, title, *said in self.cards(page)
        ])
        self.assertEqual("2 computed rightly", page.text("#verdict"))
        # Both stations in one file, with names that say nothing: the station of a sheet, the targets of a table.
        page.empty()
        both = self.file("job.gsi", P7_FIELD.read_bytes() + FIELD.read_bytes())
        others = [P7_TABLE, TABLE, P7_SHEET, SHEET]
        page.give(both, *(self.file(f"{nth}.csv", path.read_bytes()) for nth, path in enumerate(others)))
        self.assertEqual(["good", "good"], [card[0] for card in self.cards(page)])
        self.assertEqual([4, 4], [len(card) for card in self.cards(page)])
        # Whatever separates the columns.
        for nth, separator in enumerate([b";", b"\t", b" "]):
            page.empty()
            page.give(both, self.file(f"{nth}.txt", FOUR_DECIMALS.replace(b",", separator)))
            self.assertEqual(["good", "read"], [card[0] for card in self.cards(page)])
        # A table without any target of the stations waits until it has one by choice.
        page.empty()
        page.give(both, self.file("odd.csv", b"X,0\nY,1\n"))
        self.assertEqual(["open", "odd.csv"], self.cards(page)[0][:2])
        self.choose(page, "odd.csv", "job.gsi: S1")
        self.assertEqual("refused: table row 1: Unknown", page.text(".exact samp"))

    def test_of_many_cards_the_first_of_each_kind_is_led_to(self):
        page = self.page(*(self.file(f"{nth}.gsi", FIELD.read_bytes()) for nth in range(9)), self.plain(), self.file("8.csv", SHEET.read_bytes()))
        self.assertEqual("1 to do; 8 read, not compared; 1 computed rightly", page.text("#verdict"))
        for button, title in [("1 computed rightly", "Station S18.gsi"), ("1 to do", "plain.gsi"), ("8 read, not compared", "Station S10.gsi")]:
            page.press(button)
            found = page.wait(IN_HAND)
            self.assertTrue(found[0].endswith(title) and 0 <= found[1] < SCREEN[1] - 100, (button, found))

    def test_a_table_has_each_station_and_what_is_refused_comes_first(self):
        fault = self.file("fault.gsi", FIELD.read_bytes().replace(b"25000010", b"2500001X", 1))
        page = self.page(P7_FIELD, P7_SHEET, FIELD, self.plain(), fault)
        rows = "[...document.querySelectorAll('#overview tr')].map(row => [...row.cells].map(cell => cell.textContent))"
        none = ["\u2013"] * 5
        self.assertEqual([
            ["Station", "Answer", "Residual", "s", "Sets", "Targets", "Field file"],
            ["fault.gsi", "Refused", *none],
            ["plain.gsi", "To do", *none],
            ["P7", "Computed rightly", "0.320", "0.211", "4", "6", P7_FIELD.name],
            ["S1", "Not compared", "0.005", "0.010", "2", "2", FIELD.name],
        ], page.js(rows))
        self.assertEqual(["bad", "open", "good", "read"], [card[0] for card in self.cards(page)])
        for title in ("S1", "fault.gsi"):
            page.press(title)
            self.assertIn(title, page.wait(IN_HAND)[0])
        # A limit that refuses a station leads it to the front, and leaves the keyboard in its card.
        page.js("[...document.querySelectorAll('.card')].at(-1).querySelector('.results summary').focus()")
        page.fill("residual", "0")
        self.assertEqual(["bad", "bad", "bad", "open"], [card[0] for card in self.cards(page)])
        self.assertIn("Station S1", page.wait(IN_HAND)[0])
        self.assertEqual([], page.js(CONTRASTS))
        page.empty()
        page.give(FIELD)
        self.assertEqual("", page.text("#overview"))

    def test_a_station_that_was_named_stays_in_sight(self):
        page = self.page(*(self.file(f"{nth}.gsi", FIELD.read_bytes()) for nth in range(9)), self.plain())
        for name, title in [("P\u00e47", "plain.gsi"), ("P7", "Station P7plain_marked.gsi")]:
            page.js("scrollTo(0, document.body.scrollHeight)")
            self.state_name(page, name)
            found = page.wait(IN_HAND)
            self.assertTrue(found[0].endswith(title) and 0 <= found[1] < SCREEN[1] - 100, found)

    def test_of_several_field_files_a_sheet_goes_to_the_longest_name_that_fits(self):
        fields = [self.file(name, FIELD.read_bytes()) for name in ("2026.gsi", "2026.11.GSI")]
        page = self.page(*fields, self.file("2026.11.csv", SHEET.read_bytes()), self.file("week.csv", SHEET.read_bytes()))
        moods = [(card[0], card[1]) for card in self.cards(page)]
        self.assertEqual([("open", "week.csv"), ("read", "Station S1"), ("good", "Station S1")], moods)
        self.assertEqual(["week.csv", "2026.gsi", "2026.11.GSI"], page.texts(".card header .name"))

    def test_cancel_empties_nothing_and_a_file_can_be_taken_away(self):
        page = self.page(FIELD, SHEET)
        page.js("$('choose').onclick(); $('choose').dispatchEvent(new Event('cancel')); $('choose').onchange()")
        page.settle()
        self.assertEqual(["station_s1.gsi", "station_s1.csv"], page.texts("#inputs .name"))
        self.assertEqual("good", self.cards(page)[0][0])
        with page.answered():
            page.js("document.querySelectorAll('#inputs button')[1].click()")
        self.assertEqual("read", self.cards(page)[0][0])
        # One of the same name takes the place of the older.
        page.give(self.file(FIELD.name, P7_FIELD.read_bytes()))
        self.assertEqual([FIELD.name], page.texts("#inputs .name"))
        self.assertEqual("Station P7", self.cards(page)[0][1])

    def test_of_two_files_of_one_name_the_chosen_one_counts(self):
        """They come from two folders, together; and a copy with codes is called as another file is."""
        paths = []
        for name, data in (("mon", P7_FIELD.read_bytes()), ("tue", P7_FIELD.read_bytes().replace(b"39999942", b"39999342"))):
            (self.folder / name).mkdir()
            paths.append(self.folder / name / "job.gsi")
            paths[-1].write_bytes(data)
        page = self.page(*paths, self.file("t.csv", FOUR_DECIMALS))
        self.assertEqual(["job.gsi (1)", "job.gsi (2)", "t.csv"], page.texts("#inputs .name"))
        self.assertEqual(["open", "read", "read"], [card[0] for card in self.cards(page)])
        for nth, mood in ((1, "good"), (2, "bad"), (1, "good")):
            self.choose(page, "t.csv", f"job.gsi ({nth}): P7")
            moods = [card[0] for card in self.cards(page)]
            # (one that is refused comes first)
            self.assertEqual([mood, "read"], moods)
            digest = hashlib.sha256(paths[nth - 1].read_bytes()).hexdigest()
            self.assertIn(digest, page.texts(".card .digests")[0])
            self.assertIn("t.csv", page.texts(".card")[0])
        page.empty()
        plain = b"".join(line for line in P7_FIELD.read_bytes().splitlines(True) if line[:3] != b"*41")
        job = self.file("job.gsi", b"*110000+00000000000000P7 88..10+0000000000001500\n" + plain)
        page.give(job, self.file("job_marked.gsi", paths[1].read_bytes()), self.file("t.csv", FOUR_DECIMALS))
        stations = "now.cards.filter(card => card.station)"
        places = "{0}.filter(card => {1}card.field.original).map(card => placeName(card.station))"
        for of, mood in (("", "good"), ("!", "bad")):
            (place,) = page.js(places.format(stations, of))
            self.choose(page, "t.csv", place)
            chosen = f"now.cards.find(card => card.station && placeName(card.station) === {json.dumps(place)}).mood"
            self.assertEqual(mood, page.js(chosen))
        self.assertEqual(2, len({*page.js(f"{stations}.map(card => placeName(card.station))")}))

    def test_a_file_that_another_replaces_is_named(self):
        page = self.page(FIELD, SHEET)
        self.assertEqual("", page.text("#replaced"))
        page.give(self.file(FIELD.name, P7_FIELD.read_bytes()))
        self.assertEqual(f"Replaced by a file of the same name: {FIELD.name}.", page.text("#replaced"))
        page.give(P7_TABLE)
        self.assertEqual("", page.text("#replaced"))

    def week(self):
        """A folder with two days, of which each has a job and a table of the same names, and other files."""
        week = self.folder / "week"
        for day, station in (("mon", "p7"), ("tue", "s1")):
            (week / day).mkdir(parents=True)
            for name, end in (("job.gsi", ".gsi"), ("t.csv", "_directions.csv")):
                shutil.copy(EXAMPLES / f"station_{station}{end}", week / day / name)
        (week / "mon" / "photo.jpg").write_bytes(UNUSED[-1][1])
        (week / ".hidden.gsi").write_bytes(FIELD.read_bytes())
        (week / "tue" / "lost.gsi").write_bytes(b"")
        return week

    def test_the_files_of_a_folder_belong_together_by_their_folders(self):
        """Of a folder that is dropped, and of one that is chosen."""
        week = self.week()
        for way in ("drop", "choose"):
            page = self.page()
            if way == "drop":
                page.drop(week)
            else:
                page.give(week, button="choose-folder")
            with self.subTest(way):
                names = [f"week/{day}/{name}" for day in ("mon", "tue") for name in ("job.gsi", "t.csv")]
                self.assertEqual(["lost.gsi", *names], sorted(page.texts("#inputs .name")))
                # A job of which nothing is there is no file that is left aside.
                self.assertEqual("not used: the file is empty", page.text("#inputs .kind"))
                self.assertEqual("Not used, from folders: week/mon/photo.jpg.", page.text("#skipped"))
                self.assertEqual("2 computed rightly", page.text("#verdict"))
                self.assertEqual({"good"}, {card[0] for card in self.cards(page)})
        # One that lies elsewhere replaces none of them, and stands beside.
        page.give(week / "mon" / "job.gsi")
        self.assertEqual("", page.text("#replaced"))
        self.assertIn("job.gsi", page.texts("#inputs .name"))
        self.assertEqual("", page.text("#skipped"))

    def test_a_job_that_changes_on_disk_is_read_again(self):
        """What was stated of it stays."""
        page, plain = self.page(), self.plain()
        page.drop(plain)
        self.state_name(page, "P7")
        before = page.text(".digests")
        plain.write_bytes(plain.read_bytes().replace(b"39999942", b"39999342"))
        page.fill("two-c", "19")
        self.assertEqual(before, page.text(".digests"))
        with page.answered():
            page.js("$('read-again').click()")
        self.assertIn(hashlib.sha256(plain.read_bytes()).hexdigest(), page.text(".digests"))
        self.assertEqual(["read", "Station P7"], self.cards(page)[0][:2])
        self.assertRegex(page.text("#read-again"), r"^Read again \(as of \d\d:\d\d:\d\d\)$")
        plain.unlink()
        with page.answered():
            page.js("$('read-again').click()")
        self.assertEqual("not used: it can’t be read; drop it again", page.text("#inputs .kind"))
        # A file without a handle is dropped again: the newer takes its place.
        page.empty()
        page.give(P7_FIELD)
        self.assertFalse(page.js("$('read-again').checkVisibility()"))

    def test_two_columns_of_a_workbook_are_a_table_and_what_was_taken_is_shown(self):
        rows = [row.split(",") for row in FOUR_DECIMALS.decode().splitlines()]
        typed = [["Ziel", "Hz"], *([name, float(gon)] for name, gon in rows)]
        # As a computer keeps 64.5213, and a number that was computed.
        typed[2][1], typed[3][1] = 64.521299999999997, 139.40449999999998
        taken = "Ziel,Hz\nTOWER,0\nP3,64.5213\nMAST,139.4045\nP8,212.7572\nCHURCH,278.8606\nP12,345.2092\n"
        agrees = "Agrees. 6 targets within 0.025 mgon of the least-squares directions; the limit is 0.055 mgon."
        for nth, how in enumerate([{}, {"prefix": "x:"}, {"packed": False}]):
            book = books.write(self.folder / f"{nth}.xlsx", typed, **how)
            page = self.page(P7_FIELD, book)
            with self.subTest(how):
                self.assertEqual([["good", "Station P7", agrees]], self.cards(page))
                self.assertEqual("table of directions, of the first worksheet", page.texts("#inputs .kind")[1])
                self.assertEqual(taken, page.text(".answer .marked pre"))
                said = f"Taken from the first worksheet of {nth}.xlsx by the page alone, which is not proved: compare it."
                self.assertEqual(said, page.text(".answer .marked p"))
                self.assertEqual(taken.encode(), page.saved("Save it as CSV", f"{nth}.csv"))
                self.assertEqual(f"station_check compare station_p7.gsi P7 {nth}.csv", page.text(".exact code"))
                printed = self.printed_text(page)
                for one in (said, hashlib.sha256(book.read_bytes()).hexdigest(), hashlib.sha256(taken.encode()).hexdigest()):
                    self.assertIn(one, printed)
        # Three columns are no table; nor is what is no workbook.
        page = self.page(P7_FIELD, books.write(self.folder / "three.xlsx", [["A", 0.5, 1.5], ["B", 1.5, 2.5]]), self.file("none.xlsx", b"PK\3\4"))
        kinds = dict(zip(page.texts("#inputs .name"), page.texts("#inputs .kind")))
        for name in ("three.xlsx", "none.xlsx"):
            self.assertTrue(kinds[name].startswith("not used: a spreadsheet"), kinds)
        # A station is chosen for one as for a table.
        both = self.file("both.gsi", P7_FIELD.read_bytes() + FIELD.read_bytes())
        page = self.page(both, books.write(self.folder / "odd.xlsx", [["X", 0.5], ["Y", 1.5]]))
        self.assertEqual(["open", "odd.csv"], self.cards(page)[0][:2])
        self.choose(page, "odd.xlsx", "both.gsi: S1")
        self.assertEqual("refused: table row 1: Unknown", page.text(".exact samp"))

    # ------------------------------------------------------------ limits

    def moved(self, units):
        """The field file of P7 with both readings of P8 in set 2 moved by so many units of 0.01 mgon."""
        lines, inside = P7_FIELD.read_text().splitlines(True), False
        for at, line in enumerate(lines):
            if line.startswith("*41"):
                inside = line.rstrip().endswith("0000000000000002")
            if inside and "00P8 " in line:
                hz = re.search(r"21\.322\+(\d{16})", line)
                lines[at] = line.replace(hz[1], f"{int(hz[1]) + units:016}")
        return self.file(f"moved{units}.gsi", "".join(lines).encode())

    def test_the_limit_of_residuals_holds_each_station(self):
        """With a table that was computed from it, with a sheet, and alone."""
        page = self.page(self.moved(600))
        table = self.file("of_it.csv", page.saved("Save directions (CSV)", "P7_directions.csv"))
        kept = "Greatest residual 3.401 mgon, set 2, P8: within the limit of 10 mgon."
        above = "Greatest residual 3.401 mgon, set 2, P8: above the limit of 1 mgon."
        command = "station_check directions --residual 1mgon moved600.gsi P7"
        agrees = "Agrees. 6 targets within 0.001 mgon of the least-squares directions; the limit is 0.01 mgon."
        read = "Read without a fault: 4 sets, 6 targets, 22 directions."
        for others, mood, said in [((), "read", read), ((table,), "good", agrees)]:
            page.empty()
            page.give(self.folder / "moved600.gsi", *others)
            self.assertEqual([[mood, "Station P7", said]], self.cards(page))
            self.assertIn(kept, page.texts(".card > p"))
            page.fill("residual", "1")
            self.assertEqual("bad", self.cards(page)[0][0])
            self.assertIn(above, self.cards(page)[0])
            self.assertIn(above, page.text("#verdict"))
            self.assertNotIn("Computed rightly", page.text(".card"))
            self.assertIn(above, "".join(self.facts(page)))
            self.assertEqual([], page.texts("#answers .good, #protocol .good"))
            self.assertEqual(command, page.texts(".exact code")[-1])
            self.assertIn(command, "".join(self.facts(page)))
            for limit, isKept in (("3.4", False), ("3.405", True), ("10", True)):
                page.fill("residual", limit)
                self.assertEqual(isKept, "within the limit" in page.text(".card"), limit)

    def test_the_greatest_residual_is_the_one_of_the_line_and_is_said_once_in_words(self):
        page = self.page(self.moved(600))
        table = self.file("of_it.csv", page.saved("Save directions (CSV)", "P7_directions.csv"))
        page.give(table)
        line = "agrees P7: 4 sets, 6 targets, within 0.001 mgon, limit 0.010 mgon, greatest residual 3.401 mgon"
        self.assertEqual([line], page.texts(".exact samp"))
        words = page.js(
            "[...document.querySelectorAll('.card > p, .card .answer > p')].map(one => one.textContent).join(' ')"
        )
        self.assertEqual(1, words.count("3.401"), words)

    def test_a_report_says_by_which_limit_of_residuals_another_one_is_printed(self):
        page = self.page(P7_FIELD)
        button, name = "Save report (TXT)", "P7_report.txt"
        report = page.saved(button, name).decode()
        self.assertIn("Limit of residuals    10.000 mgon\n", report)
        self.assertEqual(f"Saved as {name}.", page.text(".results [role=status]"))
        page.fill("residual", "1")
        page.press(button)
        more = "It was held to 10 mgon, the largest limit of residuals; with yours: "
        command = f"station_check report --residual 1mgon {P7_FIELD.name} P7"
        self.assertEqual(f"Saved as {name}. {more}{command}", page.text(".results [role=status]"))

    def facts(self, page):
        """What stands among the facts of the protocols."""
        page.js("onbeforeprint()")
        return page.texts("#protocol .facts dd")

    def test_a_residual_that_stops_the_adjustment_is_named(self):
        page = self.page(self.moved(6000))
        self.assertEqual("bad", self.cards(page)[0][0])
        headline = "Not adjusted, so there are no residuals: A residual is above its limit."
        self.assertIn(headline, self.cards(page)[0])
        self.assertIn("set 2, target P8", page.text(".answer .lines"))
        self.assertEqual("station_check report --csv moved6000.gsi P7", page.texts(".exact code")[-1])
        self.assertIn("set 2, target P8", self.printed_text(page))
        self.assertEqual("Station P7: Read without a fault: 4 sets, 6 targets, 22 directions. " + headline, page.text("#verdict"))

    def printed_text(self, page):
        page.js("onbeforeprint()")
        return page.text("#protocol")

    def test_no_limit_is_printed_to_which_nothing_was_held(self):
        page = self.page(P7_FIELD)
        self.assertIn("2c 20, 2i 20, residuals 10 mgon", self.facts(page))
        page.give(self.file("four.csv", FOUR_DECIMALS))
        self.assertIn("2c 20, 2i 20, residuals 10 mgon, tables within 0.01 mgon or as they are rounded", self.facts(page))
        page.empty()
        page.give(self.file("fault.gsi", FIELD.read_bytes().replace(b"25000010", b"2500001X", 1)))
        self.assertIn("2c 20, 2i 20 mgon", self.facts(page))
        # A station in two parts has no residuals, and one beyond every limit is refused for them.
        for case, limits in [
            ("fault_adjust_not_connected", "2c 20, 2i 20 mgon"),
            ("fault_adjust_residual_for_report_rows", "2c 20, 2i 20, residuals 10 mgon"),
        ]:
            page.empty()
            page.give(ROOT / "conformance" / "refused" / "adjustment" / case / "field.gsi")
            self.assertEqual("bad", self.cards(page)[0][0])
            self.assertIn(limits, self.facts(page))

    def test_of_a_large_file_residuals_are_judged_when_they_are_opened(self):
        """Before, no limit of them is told; then the card says what came of it."""
        page = self.page()
        data = bench.field_file(bench.Shape("large", 100, 40, 10)).encode()
        page.give(self.file("large.gsi", data))
        self.assertNotIn("within the limit", page.text("#answers"))
        page.js("document.querySelector('.card details.results').open = true")
        page.wait("document.querySelector('.card').textContent.includes('within the limit of 10 mgon')")
        page.settle()
        self.assertTrue(page.js("document.querySelector('.card details.results').open"))

    # ------------------------------------------------------------ what stays

    def test_a_language_or_a_limit_changes_nothing_else(self):
        """What was opened stays open, what was chosen chosen, what was typed typed, and the keyboard
        stays where it was."""
        both = self.file("job.gsi", P7_FIELD.read_bytes() + FIELD.read_bytes())
        files = [self.file(f"{nth}.gsi", FIELD.read_bytes()) for nth in range(3)]
        page = self.page(both, *files, self.plain(), self.file("odd.csv", FOUR_DECIMALS))
        self.choose(page, "odd.csv", "job.gsi: P7")
        page.js("document.querySelectorAll('.card details.results')[2].open = true")
        page.wait("document.querySelectorAll('.card details.results')[2].classList.contains('filled')")
        page.js("{ const name = document.querySelector('.card form input'); name.value = 'P1'; name.oninput(); name.focus() }")

        def look():
            return page.js(
                "[[...document.querySelectorAll('.card details.results')].map(one => one.open),"
                " document.querySelector('.card form input').value,"
                " document.activeElement === document.querySelector('.card form input'),"
                " [...document.querySelectorAll('#inputs select.station')].map(one => one.selectedIndex)]"
            )

        before = look()
        self.assertEqual([False, False, True, False, False], before[0])
        self.assertEqual(["P1", True, [1]], before[1:])
        for code in ("de", "fr", "en"):
            page.js(f"languages.value = '{code}'; languages.onchange()")
            page.settle()
            self.assertEqual(before, look())
        page.fill("within", "0.5")
        self.assertEqual(before, look())
        # A button in the results, and in the list of files.
        for selector in (
            ".card .buttons > button", "#inputs li:nth-child(3) button", "#inputs select", ".card details.results > summary",
            "#overview tr:nth-child(3) button", ".results section summary",
        ):
            page.settle()
            here = f"document.activeElement === document.querySelector({json.dumps(selector)})"
            page.js(f"document.querySelector({json.dumps(selector)}).focus()")
            page.js("languages.value = 'de'; languages.onchange()")
            page.settle()
            self.assertTrue(page.js(here), selector)
        # A file that is taken away leaves the keyboard at the next one.
        with page.answered():
            page.js("{ const gone = document.querySelector('#inputs li:nth-child(2) button'); gone.focus(); gone.click() }")
        self.assertTrue(page.js("document.activeElement === document.querySelector('#inputs li:nth-child(2) button')"))
        with page.answered():
            page.js("{ const gone = document.querySelector('#inputs li:nth-child(4) button'); gone.focus(); gone.click() }")
        self.assertTrue(page.js("document.activeElement.closest('#inputs li:nth-child(4)') !== null"))

    def test_what_was_saved_stays_said_and_what_was_unfolded_stays_so(self):
        """With another language, another limit, and one that is wrong."""
        page = self.page(P7_FIELD, P7_TABLE)
        page.saved("Save directions (CSV)", "P7_directions.csv")
        page.js("document.querySelector('.results section details').open = true")
        folds = "[...document.querySelectorAll('.card details')].map(one => one.open)"
        before = page.js(folds)
        for code, said in [("de", "Gespeichert als"), ("fr", "Enregistr\u00e9 sous"), ("en", "Saved as")]:
            self.speak(page, code)
            self.assertEqual(f"{said} P7_directions.csv.", page.text(".results [role=status]"))
            self.assertEqual(before, page.js(folds))
        for limit in ("0.3", "x", ""):
            page.fill("residual", limit)
            self.assertEqual("Saved as P7_directions.csv.", page.text(".results [role=status]"))
            self.assertEqual(before, page.js(folds))

    def test_an_earlier_answer_stays_in_grey_and_cannot_be_used(self):
        """As long as a limit is wrong: nothing of it is printed, and no button of it does anything."""
        page = self.page(P7_FIELD, P7_SHEET)
        page.js("window.print = () => { throw new Error('printed') }")
        page.fill("two-c", "x")
        self.assertTrue(page.js("$('answered').matches('.stale') && getComputedStyle($('answered')).filter === 'grayscale(1)'"))
        page.press("Print protocol")
        self.assertEqual([], page.complaints())
        page.js("onbeforeprint()")
        self.assertNotIn("Accepted", page.text("#protocol"))
        page.fill("two-c", "")
        self.assertFalse(page.js("$('answered').matches('.stale')"))
        self.assertEqual([["good", "Station P7", P7_HEADLINE]], self.cards(page))

    def test_what_was_said_is_said_in_the_language_that_is_chosen(self):
        page = self.page()
        for do, said in [
            ("go({ phase: { is: 'checking' } })", "Wird geprüft …"),
            ("go({ phase: { is: 'failed', error: new Stopped() } })", "Abgebrochen. Was kein Ergebnis hat, wurde nicht geprüft."),
            ("go({ phase: { is: 'failed', error: new Error('CompileError') } })", "Dieser Browser kann nicht prüfen"),
        ]:
            page.js(f"{do}; languages.value = 'de'; languages.onchange()")
            self.assertTrue(page.text("#verdict").startswith(said), page.text("#verdict"))
            page.js("languages.value = 'en'; languages.onchange()")

    # ------------------------------------------------------------ the fields of limits

    def test_limits_are_stated_in_mgon_and_those_in_force_are_shown(self):
        page = self.page(FIELD, SHEET)
        in_force = "2c 20, 2i 20, residuals 10 mgon, tables within 0.01 mgon or as they are rounded"
        self.assertEqual(in_force, page.text("#in-force"))
        page.fill("residual", "0")
        self.assertEqual("refused: kernel: Residual 1", page.text(".exact samp"))
        page.fill("residual", "0,005")
        self.assertEqual("accepted S1: 2 sets, 2 targets, 4 directions, greatest residual 4/4", page.text(".exact samp"))
        command = f"station_check check --residual 0.005mgon {FIELD.name} {SHEET.name}"
        self.assertEqual(command, page.text(".exact code"))
        page.fill("two-c", "0.07")
        self.assertEqual("refused: block 5: TwoC", page.text(".exact samp"))
        self.assertIn("2c 0.07, 2i 20, residuals 0.005 mgon,", page.text("#in-force"))
        page.fill("two-c", "")
        self.assertIn("2c 20,", page.text("#in-force"))
        for name, value, ends in [
            ("two-c", "-1", "0 to 10000, in steps of 0.01"),
            ("residual", "10.005", "0 to 10, in steps of 0.005"),
            ("residual", "0.001", "0 to 10, in steps of 0.005"),
            ("within", "ten", "0 to 1000, in steps of 0.001"),
            ("decimals", "9", "1 to 8, in steps of 1"),
        ]:
            before = page.js(f"$('{name}').value")
            page.fill(name, value)
            with self.subTest(name, value=value):
                self.assertTrue(page.text("#verdict").endswith(f": a number from {ends}"), page.text("#verdict"))
                # What was answered before is in grey.
                self.assertTrue(page.js("$('answered').matches('.stale')"))
            page.fill(name, before)
        self.assertFalse(page.js("$('answered').matches('.stale')"))
        self.assertEqual(1, len(self.cards(page)))

    def test_numbers_are_rounded_and_read_exactly(self):
        page = self.page()
        for numerator, denominator, decimals, text in [
            (85967 * 5, 1344 * 1000, 2, "0.32"),
            (-1, 2, 0, "-1"),
            (1, 2, 0, "1"),
            (5, 1000, 2, "0.01"),
            (-4, 1000, 2, "0.00"),
            (10**30 + 5, 10, 0, f"{10**29 + 1}"),
            (1999, 1000, 2, "2.00"),
        ]:
            self.assertEqual(text, page.js(f"decimal({numerator}n, {denominator}n, {decimals})"))
        for text, per, units in [
            ("0.3", 200, 60), ("0,3", 100, 30), ("20", 100, 2000), (" 7.5 ", 100, 750), ("0.005", 200, 1), ("1.", 1000, 1000),
            ("0.001", 200, None), ("-1", 100, None), ("1e3", 100, None), ("", 100, None), (".5", 100, None), ("1.5", 1, None),
        ]:
            self.assertEqual(units, page.js(f"unitsIn('{text}', {per})"), text)

    # ------------------------------------------------------------ what is kept

    def test_what_is_saved_is_what_the_program_prints(self):
        page = self.page(FIELD)
        for button, name, case in [
            ("Save sheet of means", "S1.csv", "means/means_of_the_example"),
            ("Save directions (CSV)", "S1_directions.csv", "directions/directions_of_the_example"),
        ]:
            with self.subTest(name):
                self.assertEqual((CASES / case / "stdout").read_bytes(), page.saved(button, name))
        rows = (CASES / "report" / "report_as_rows" / "stdout").read_bytes()
        self.assertEqual(rows, page.saved("Save residuals (CSV)", "S1_residuals.csv"))
        faces = "set,target,2c mgon,2i mgon\n1,A,0.06,-0.02\n1,B,0.10,0.00\n"
        self.assertTrue(page.saved("Save 2c and 2i (CSV)", "S1_faces.csv").decode().startswith(faces))
        page.empty()
        page.give(P7_FIELD)
        self.assertNotIn("Save sheet of means", page.texts("button"))

    def test_rows_are_saved_as_spreadsheets_of_the_language_read_them(self):
        """In German with semicolons and decimal commas, as the program writes them; they can be handed in again."""
        folder = CASES / "differences" / "differences_with_decimal_commas"
        page = self.page(FIELD, folder / "table.csv")
        self.speak(page, "de")
        directions = page.saved("Richtungen speichern (CSV)", "S1_directions.csv")
        self.assertEqual((CASES / "directions" / "directions_with_decimal_commas" / "stdout").read_bytes(), directions)
        differences = page.saved("Abweichungen speichern (CSV)", "table_differences.csv")
        self.assertEqual((folder / "stdout").read_bytes(), differences)
        titles, first, *_ = page.saved("Verbesserungen speichern (CSV)", "S1_residuals.csv").decode().splitlines()
        self.assertEqual("station;set;target;face one;face two;direction", titles.partition(";2c")[0])
        self.assertRegex(first, r"^S1;1;A;\d+,\d{6};\d+,\d{6};")
        faces = page.saved("2c und 2i speichern (CSV)", "S1_faces.csv").decode()
        self.assertTrue(faces.startswith("set;target;2c mgon;2i mgon\n1;A;0,06;-0,02\n1;B;0,10;0,00\n"))
        page.empty()
        page.give(FIELD, self.file("given.csv", directions))
        self.assertTrue(page.text(".headline").startswith("Stimmt überein"), page.text(".headline"))

    def test_the_protocol_is_saved_as_a_page_of_its_own(self):
        page = self.page(P7_FIELD, P7_SHEET)
        saved = page.saved("Save protocol", "station_p7_P7.html")
        self.assertNotIn(b"<script", saved)
        path = self.file("saved.html", saved)
        page.call("Page.navigate", url=path.as_uri())
        page.wait("document.readyState === 'complete' && document.querySelector('.protocol') !== null")
        self.assertEqual("Protocol of sets: Station P7", page.text("h1"))
        self.assertTrue(page.js("document.querySelector('.protocol').checkVisibility()"))

    def test_the_protocol_is_printed_with_all_that_an_office_files(self):
        page = self.page(self.file("wide.gsi", bench.field_file(bench.Shape("wide", *WIDE)).encode()))
        page.call("Emulation.setEmulatedMedia", media="print")
        page.js("onbeforeprint()")
        facts = page.text(".facts")
        for said in ("wide.gsi", hashlib.sha256((self.folder / "wide.gsi").read_bytes()).hexdigest(), "residuals 10"):
            self.assertIn(said, facts)
        self.assertEqual(["Observer, instrument", "Checked by: place, date, signature"], page.texts(".signs p"))
        # Nothing is wider than the paper between its margins, of 182 mm.
        widths = page.js("[...document.querySelectorAll('#protocol table')].map(table => table.offsetWidth)")
        self.assertLess(max(widths), 182 / 25.4 * 96)
        # Each table has all rows; the sets stand in groups, each once in each kind of table.
        heads = page.texts("#protocol .bars thead th:not(:first-child)")
        self.assertEqual([f"Set {nth + 1}" for nth in range(WIDE[1])], heads)
        self.assertEqual(WIDE[1] * WIDE[2], page.js("document.querySelectorAll('#protocol .bars tbody td').length"))
        # No panel of the picture is higher than a page, or cut by its end.
        panels = page.js("[...document.querySelectorAll('#protocol .picture svg')].map(e => [e.getBoundingClientRect().height, getComputedStyle(e).breakInside])")
        self.assertEqual(3, len(panels))
        self.assertTrue(all(height < 265 / 25.4 * 96 and inside == "avoid" for height, inside in panels), panels)
        self.assertEqual("none", page.js("getComputedStyle($('main')).display"))

    @unittest.skipUnless(shutil.which("pdftotext"), "no pdftotext is found")
    def test_the_printed_pages_repeat_the_heads_of_tables_and_lose_nothing(self):
        page = self.page(self.file("wide.gsi", bench.field_file(bench.Shape("wide", *WIDE)).encode()))
        pages = self.printed(page)
        text = "".join(pages)
        told = "#protocol .across .caption, #protocol .quiet, #protocol .picture text"
        shown = " ".join(page.texts(".results td, " + told))
        values = re.compile(r"(?<![\d.])[+\u2212]\d+\.\d\d\d?(?!\d)")
        self.assertEqual(Counter(values.findall(shown)), Counter(values.findall(text)))
        for number, one in enumerate(pages, 1):
            self.assertRegex(one, rf"(?m)^ *Protocol of sets: Station S1, wide.gsi  +{number} ?/ ?{len(pages)}$")
            if re.search(r"^ *P\d+ +[+\u2212]", one, re.MULTILINE):
                first = re.search(r"^ *(Target|P\d+) ", one, re.MULTILINE)
                self.assertEqual("Target", first[1], one[:300])

    def printed(self, page):
        """The text of each page of paper."""
        path = self.file("printed.pdf", page.printed())
        return subprocess.run(["pdftotext", "-layout", path, "-"], capture_output=True, text=True).stdout.split("\f")[:-1]

    @unittest.skipUnless(shutil.which("pdftotext"), "no pdftotext is found")
    def test_the_protocol_of_a_usual_station_has_one_page(self):
        (text,) = self.printed(self.page(P7_FIELD, P7_SHEET))
        self.assertIn("Residuals as a picture", text)
        self.assertIn("SHA-256 of the module inside", text)

    @unittest.skipUnless(shutil.which("pdftotext"), "no pdftotext is found")
    def test_with_a_table_of_six_targets_the_protocol_has_one_page(self):
        """In each language, and the picture stands beside the residuals."""
        page = self.page(P7_FIELD, self.file("four.csv", FOUR_DECIMALS))
        for code in page.js("Object.keys(LANGUAGES)"):
            self.speak(page, code)
            with self.subTest(code):
                (text,) = self.printed(page)
                self.assertRegex(text, rf"(?m)^ *{page.js('text(`residuals`)')} +{page.js('text(`picture`)')}$")
                self.assertIn(" ".join(page.js("text('sign')").split()), " ".join(text.split()))

    def test_what_is_stated_has_the_decimals_that_the_table_has(self):
        uneven = FOUR_DECIMALS.replace(b"0.0000", b"0").replace(b"64.5213\n", b"64.521300000\n").replace(b",", b"\t ")
        for table, expected in [
            (FOUR_DECIMALS, ["0.0000", "64.5213", "139.4045", "212.7572", "278.8606", "345.2092"]),
            (b"Ziel;Hz\n" + FOUR_DECIMALS.replace(b",", b";").replace(b".", b","), ["0.0000", "64.5213", "139.4045", "212.7572", "278.8606", "345.2092"]),
            (uneven, ["0", "64.521300", "139.4045", "212.7572", "278.8606", "345.2092"]),
        ]:
            page = self.page(P7_FIELD, self.file("table.csv", table))
            stated = page.js("[...document.querySelectorAll('.results table')[0].tBodies[0].rows].map(row => row.cells[2].textContent)")
            self.assertEqual(expected, stated)
        # No digit goes that isn't a zero at the end.
        for number, decimals, shown in [("64.521338", 4, "64.521338"), ("64.520000", 2, "64.52"), ("0.000000", 0, "0"), ("64.5", None, "64.5"), ("100", 2, "100")]:
            self.assertEqual(shown, page.js(f"asStated('{number}', {'undefined' if decimals is None else decimals})"))

    def test_the_protocol_has_what_the_user_says_of_the_job_and_the_browser_keeps_it(self):
        page = self.page(P7_FIELD)
        said = {"project": "<b>Dam & \"weir\"</b>", "instrument": "TS60 887766", "observer": "A. Mayer"}
        for name, one in said.items():
            page.js(f"$('{name}').value = {json.dumps(one)}; $('{name}').oninput()")
        labels = dict(zip(page.js("(onbeforeprint(), [...document.querySelectorAll('#protocol .facts dt')].map(one => one.textContent))"), page.texts("#protocol .facts dd")))
        self.assertEqual([said["project"], "A. Mayer, TS60 887766"], [labels[name] for name in ("Project", "Observer, instrument")])
        self.assertEqual(["Checked by: place, date, signature"], page.texts(".signs p"))
        self.assertIn("&lt;b&gt;Dam &amp; ", page.js("protocolFile(now.cards[0], now.limits)"))
        page.call("Page.reload")
        page.wait("document.readyState === 'complete' && typeof now !== 'undefined' && now.turn > 0")
        self.assertEqual([*said.values()], page.js("['project', 'instrument', 'observer'].map(name => $(name).value)"))
        page.empty()
        page.give(P7_FIELD)
        page.js("$('observer').value = ''; $('observer').oninput()")
        page.js("onbeforeprint()")
        self.assertEqual(["Observer, instrument", "Checked by: place, date, signature"], page.texts(".signs p"))
        self.assertIn("Instrument, number", page.texts("#protocol .facts dt"))

    def test_the_protocol_has_the_readings_of_the_report(self):
        """Each row, set by set, the greatest 2c and 2i marked; in the window they are folded."""
        page = self.page(P7_FIELD, P7_SHEET)
        report = page.saved("Save report (TXT)", "P7_report.txt").decode()
        rows = report.partition(" 2c        2i\n")[2].partition("\nZenith")[0].splitlines()
        expected = [row.split() for row in rows if row[:5].strip().isdigit()]
        self.assertEqual(22, len(expected))
        page.js("onbeforeprint()")
        read = (
            "[...document.querySelectorAll('%s .sets table')].flatMap(table => [...table.tBodies[0].rows]"
            ".map(row => [table.tHead.rows[0].cells[0].textContent, ...[...row.cells].map(cell => cell.textContent)]))"
        )
        plain = [[cell.replace("+", "").replace(MINUS, "-") for cell in row] for row in page.js(read % "#protocol")]
        self.assertEqual([[f"Set {number}", *row] for number, *row in expected], plain)
        self.assertEqual(["+1.67", "+2.16"], page.texts("#protocol .sets td.greatest"))
        self.assertEqual([], page.js(read % "#answers"))
        page.js("document.querySelector('.results section details').open = true")
        page.wait("document.querySelectorAll('#answers .sets table').length === 4")
        # They stay unfolded.
        self.speak(page, "de")
        self.assertEqual(4, page.js("document.querySelectorAll('#answers .sets table').length"))
        # Of a station that is not adjusted there is no report, and 2c and 2i are printed as they are listed.
        page.empty()
        page.give(self.moved(6000))
        page.js("onbeforeprint()")
        self.assertEqual((0, 2), tuple(page.js(f"document.querySelectorAll('#protocol {one}').length") for one in (".sets", "section table")))

    def zeniths(self):
        """By set, and of all sets, the mean zenith angles of P7 by target, of the lines of its field file."""
        means, number = {}, None
        for line in P7_FIELD.read_text().splitlines():
            words = {word.lstrip("*")[:2]: word.lstrip("*")[7:] for word in line.split()}
            if "41" in words:
                number = int(words["42"]) if int(words["41"]) == 20 else None
            elif number:
                angle, target = int(words["22"]), words["11"].lstrip("0")
                means.setdefault((number, target), []).append(angle if angle < 20_000_000 else 40_000_000 - angle)
        by_set = {place: Fraction(sum(both), 200_000) for place, both in means.items()}
        targets = dict.fromkeys(target for _, target in by_set)
        of = {target: [one for (_, name), one in by_set.items() if name == target] for target in targets}
        return by_set, {target: sum(some) / len(some) for target, some in of.items()}

    def test_zenith_angles_are_those_of_the_field_file(self):
        """In the window folded; on paper where the user wants them."""
        by_set, of_all = self.zeniths()
        self.assertEqual(22, len(by_set))
        page = self.page(P7_FIELD)
        page.js("document.querySelectorAll('.results section details').forEach(part => { part.open = true })")
        page.wait("document.querySelectorAll('#answers .sets').length === 2")
        rows = page.js(
            "[...[...document.querySelectorAll('#answers .sets')][1].querySelectorAll('table')].flatMap(table =>"
            " [...table.tBodies[0].rows].map(row => [table.tHead.rows[0].cells[0].textContent, row.cells[0].textContent,"
            " row.cells[row.cells.length - 1].textContent]))"
        )

        def rounded(one):
            return f"{math.floor(one * 10**6 + Fraction(1, 2)) / 10**6:.6f}"

        self.assertEqual(
            [["All sets", target, rounded(one)] for target, one in of_all.items()]
            + [[f"Set {number}", target, rounded(one)] for (number, target), one in by_set.items()],
            rows,
        )
        self.assertIn("which is not proved", page.texts("#answers .whole p.caption")[1])
        self.assertEqual(["98.12404", "301.87674", "98.123650"], page.js("[...[...document.querySelectorAll('#answers .sets')][1].querySelectorAll('td')].slice(6, 9).map(cell => cell.textContent)"))
        self.assertNotIn("Zenith angles", self.printed_text(page))
        page.js("$('zeniths').checked = true; $('zeniths').onchange()")
        self.assertIn("Zenith angles", self.printed_text(page))
        page.call("Page.reload")
        page.wait("document.readyState === 'complete' && typeof now !== 'undefined' && now.turn > 0")
        self.assertTrue(page.js("$('zeniths').checked"))
        # In a job without codes they are those of the copy.
        page.empty()
        page.give(JOB)
        self.assertEqual([22, 6], page.js("now.cards.map(card => readingsIn(card.results.residuals.line).length)"))

    def test_all_protocols_are_printed_and_saved_together(self):
        """Those that were not opened too; what is saved has a list of what is in it, which leads there."""
        names = [f"{nth}.gsi" for nth in range(4)]
        fault = self.file("fault.gsi", FIELD.read_bytes().replace(b"25000010", b"2500001X", 1))
        page = self.page(*(self.file(name, FIELD.read_bytes()) for name in names), fault)
        self.assertEqual([0, True], page.js("[document.querySelectorAll('.results section').length, $('print-all').checkVisibility()]"))
        saved = page.saved("Save all protocols", "station_check_protocols.html")
        self.assertNotIn(b"<script", saved)
        page.js("print = () => { onbeforeprint(); printed = $('protocol').innerHTML }")
        page.press("Print all protocols")
        page.wait("'printed' in globalThis")
        self.assertEqual(0, page.js("document.querySelectorAll('#protocol .brief:has(section)').length"))
        self.assertEqual(4, page.js("[...document.querySelectorAll('#protocol .protocol')].filter(one => one.querySelector('.sets')).length"))
        page.call("Page.navigate", url=self.file("saved.html", saved).as_uri())
        page.wait("document.readyState === 'complete' && document.querySelector('.protocol') !== null")
        links = page.js("[...document.querySelectorAll('a')].map(one => [one.textContent, document.querySelector(one.hash)?.querySelector('h1').textContent])")
        self.assertEqual([["fault.gsi", "Check of fault.gsi"], *[["S1", "Protocol of sets: Station S1"]] * 4], links)
        self.assertEqual(4, page.js("document.querySelectorAll('.protocol:has(.sets)').length"))
        # Of one card there is no more to print than its own.
        alone = self.page(FIELD)
        self.assertFalse(alone.js("$('print-all').checkVisibility()"))

    def test_what_is_printed_is_called_by_its_field_file_and_its_station(self):
        page = self.page(P7_FIELD, P7_SHEET)
        names = [page.js("document.title"), page.js("(onbeforeprint(), document.title)"), page.js("(onafterprint(), document.title)")]
        title = "Computed rightly: Station P7 \u2013 station_check"
        self.assertEqual([title, "station_p7_P7", title], names)
        page.give(FIELD)
        self.assertEqual("Check of 3 files", page.js("(onbeforeprint(), document.title)"))
        self.assertEqual("station_s1_S1", page.js("(now.only = now.cards[1], onbeforeprint(), now.only = undefined, document.title)"))

    def test_the_tab_says_what_came_of_all_files(self):
        page = self.page()
        for files, said in [((), ""), ((P7_FIELD,), "Not compared: Station P7 \u2013 "), ((FIELD, P7_SHEET), "1 read, not compared; 1 computed rightly \u2013 ")]:
            if files:
                page.give(*files)
            self.assertEqual(f"{said}station_check", page.js("document.title"))
        self.speak(page, "de")
        self.assertEqual("1 gelesen, nicht verglichen; 1 richtig berechnet \u2013 station_check", page.js("document.title"))
        page.fill("two-c", "x")
        self.assertEqual("station_check", page.js("document.title"))

    def test_what_is_saved_of_two_stations_of_one_name_is_told_apart(self):
        page = self.page(P7_FIELD, self.file("monday.gsi", P7_FIELD.read_bytes()))
        self.assertTrue(page.saved("Save directions (CSV)", "station_p7_P7_directions.csv"))
        page.js("document.querySelectorAll('.card')[0].remove()")
        self.assertTrue(page.saved("Save directions (CSV)", "monday_P7_directions.csv"))

    def test_each_table_has_one_caption_and_each_verdict_is_a_heading(self):
        page = self.page(P7_FIELD, P7_SHEET, self.file("four.csv", FOUR_DECIMALS))
        tables = page.js("[...document.querySelectorAll('.results table')].map(one => [one.caption?.textContent, one.getAttribute('aria-label')])")
        self.assertEqual(5, len(tables))
        self.assertTrue(all(caption and label is None for caption, label in tables), tables)
        headings = [part.name for part in page.parts() if part.role == "heading"]
        self.assertIn(P7_HEADLINE, headings)
        page.js("onbeforeprint()")
        self.assertIn(f"station_p7.csv: {P7_HEADLINE}", page.texts("#protocol h2"))

    @unittest.skipUnless(shutil.which("pdftotext"), "no pdftotext is found")
    def test_a_refusal_is_printed_with_what_it_means(self):
        text = FIELD.read_text().replace("25000010", "2500001X", 1)
        (printed,) = self.printed(self.page(self.file("fault.gsi", text.encode())))
        for said in ("Check of fault.gsi", "Refused.", "refused: block 5: Hz Digits", "Line 5 of fault.gsi, block 5", "What to do: "):
            self.assertIn(said, printed)
        for said in ("Checked by: place, date, signature", hashlib.sha256(text.encode()).hexdigest()):
            self.assertIn(said, printed)
        self.assertNotIn("Add files", printed)

    @unittest.skipUnless(shutil.which("pdftotext"), "no pdftotext is found")
    def test_no_file_misses_on_paper(self):
        """Whatever came of it: each is on the first page, and each card has its protocol."""
        fault = self.file("fault_hz.gsi", FIELD.read_bytes().replace(b"25000010", b"2500001X", 1))
        others = [fault, FIELD, self.file("odd.csv", b"X,0\nY,1\n"), self.file(*UNUSED[0][:2]), self.rain()]
        page = self.page(P7_FIELD, P7_SHEET, *others)
        first, *rest = self.printed(page)
        self.assertIn("Check of 7 files", first)
        for path in (P7_FIELD, P7_SHEET, *others):
            self.assertIn(path.name, first)
        for path in (P7_FIELD, P7_SHEET, fault):
            self.assertIn(hashlib.sha256(path.read_bytes()).hexdigest(), first)
        for said in (P7_HEADLINE, "Refused.", "not used: ", NOTHING_RECOGNIZED, "several stations are possible", page.text("#verdict")):
            self.assertIn(" ".join(said.split()), " ".join(first.split()))
        self.assertIn("A target is read in one face only before the next set begins.", " ".join(" ".join(rest).split()))
        # The protocol of one station, printed or saved alone, names what was refused, open or not used.
        page.js("now.only = now.cards.find(card => card.mood === 'good'); onbeforeprint()")
        for alone in (page.text("#protocol"), page.js("protocolFile(now.only, now.limits, desk.beside(now.only))")):
            for said in ("fault_hz.gsi: Refused. An angle is not digits alone.", f"{UNUSED[0][0]}: not used: ", f"rain.gsi: {NOTHING_RECOGNIZED}"):
                self.assertIn(said, alone)
        page.js("now.only = undefined")
        all_of = "".join(rest)
        titles = ["Protocol of sets: Station P7", "Protocol of sets: Station S1", "Check of fault_hz.gsi", "Check of rain.gsi", "Check of odd.csv"]
        for title in titles:
            self.assertIn(title, all_of)
        self.assertIn("refused: block 5: Hz Digits", all_of)
        # One whose results are closed has its answer all the same.
        names = [f"{nth}.gsi" for nth in range(4)]
        page.empty()
        page.give(*(self.file(name, FIELD.read_bytes()) for name in names))
        first, *rest = self.printed(page)
        brief = "".join(rest)
        self.assertEqual(4, brief.count("Protocol of sets: Station S1"))
        self.assertLess(len(rest), 4)
        self.assertEqual(4, brief.count("are printed where they were opened"))
        for name in names:
            self.assertIn(name, first)
            self.assertIn(name, brief)

    def test_what_was_stopped_is_printed_as_not_checked(self):
        page = self.page()
        page.js(STOP_AT % json.dumps("second.csv"))
        page.give(FIELD, SHEET, self.file("second.csv", SHEET.read_bytes()))
        page.js("onbeforeprint()")
        self.assertIn("Not checked, since the work was stopped: second.csv.", page.text("#protocol"))

    @unittest.skipUnless(shutil.which("pdftotext"), "no pdftotext is found")
    def test_a_name_is_never_a_part_of_the_style(self):
        """Whatever stands in it: what would end a text of the style, a rule, or the style itself."""
        style = ".bad,.where,.lines,.explanation,.exact,.said,samp{display:none}"
        more = f"{style} .said.good::after{{content:'x'}} @page{{@bottom-left{{content:'"
        wrong = P7_SHEET.read_bytes().replace(b"set,1,,-6895,", b"set,1,,-6896,")
        for name in [f"P7\n}}}} {more}.gsi", f'P7"}} }} {style}.gsi', f"P7\\\n\\a}} {style}.gsi", f"P7\r\f{style}.gsi", "P7<!--<style>.gsi"]:
            with self.subTest(name):
                field = self.file(name, P7_FIELD.read_bytes())
                page = self.page(field, self.file("sheet.csv", wrong))
                refused = page.text(".answer .headline")
                self.assertTrue(refused.startswith("Refused. "), refused)
                printed = "".join(self.printed(page))
                for said in ("Refused. ", "refused: kernel: ", "sheet.csv"):
                    self.assertIn(said, printed)
                # The window is as it was, too.
                self.assertTrue(page.js("document.querySelector('.card.bad').checkVisibility()"))
                styles = page.texts("#protocol style")
                self.assertEqual(1, len(styles))
                self.assertRegex(styles[0], r'^@page [a-z0-9]* \{ @bottom-left \{ content: "(\\[0-9a-f]{6})+" \} \}$')
                shown = name.replace("\n", r"\x0a").replace("\r", r"\x0d").replace("\f", r"\x0c")
                self.assertIn(f"{shown}", page.text("#protocol"))
                # It stands at the foot of the page, which may cut it.
                self.assertIn(f"Protocol of sets: Station P7, {shown}"[:40], printed)
                self.assertIn("Refused. ", page.js("protocolFile(now.cards[0], now.limits)"))
                # The command that is shown is one, by that name.
                word = page.js("commandOf('list', [], {}, [now.cards[0].field.name])").removeprefix("station_check list ")
                echoed = subprocess.run(["bash", "-c", f"printf %s {word}"], capture_output=True, check=True).stdout
                self.assertEqual((name, False), (echoed.decode(), "\n" in word))

    # ------------------------------------------------------------ everyone

    def test_what_is_hidden_is_not_shown(self):
        page = self.page(FIELD)
        self.assertEqual([], page.js(
            "[...document.querySelectorAll('[hidden]')].filter(e => getComputedStyle(e).display !== 'none').map(e => e.id)"
        ))

    def test_on_a_phone_nothing_is_wider_and_letters_can_be_read(self):
        for scheme in ("light", "dark"):
            page = self.page(P7_FIELD, P7_SHEET, size=PHONE, scheme=scheme)
            page.js("$('limits').open = true")
            for code in page.js("Object.keys(LANGUAGES)"):
                page.js(f"languages.value = '{code}'; languages.onchange()")
                page.settle()
                with self.subTest(scheme=scheme, language=code):
                    self.assertLessEqual(page.js("document.documentElement.scrollWidth"), PHONE[0])
            smallest = page.js(
                "Math.min(...[...document.querySelectorAll('body *')].filter(e => e.checkVisibility() &&"
                " [...e.childNodes].some(n => n.nodeType === 3 && n.data.trim())).map(e => parseFloat(getComputedStyle(e).fontSize)))"
            )
            self.assertGreaterEqual(smallest, SMALLEST_LETTER)
            # A table that is wider has a shadow at its side, and its targets stay in sight.
            wide = "[...document.querySelectorAll('.wide')].filter(e => e.scrollWidth > e.clientWidth)"
            self.assertTrue(page.js(f"{wide}.length > 0 && {wide}.every(e => getComputedStyle(e).backgroundImage !== 'none')"))
            self.assertEqual("sticky", page.js("getComputedStyle(document.querySelector('.bars tbody th')).position"))

    def test_on_a_phone_no_file_is_wider_than_the_list_of_files(self):
        name = "a_job_of_the_whole_week_in_one_file.gsi"
        both = self.file(name, P7_FIELD.read_bytes() + FIELD.read_bytes())
        page = self.page(both, self.file("four.csv", FOUR_DECIMALS), size=PHONE)
        self.assertIn(f"{name}: P7", page.texts("#inputs option"))
        self.assertEqual(*page.js("[$('inputs').scrollWidth, $('inputs').clientWidth]"))

    def test_the_text_stands_out_in_light_and_in_dark(self):
        """Of each text on its background the contrast is 4.5 at least."""
        for scheme in ("light", "dark"):
            page = self.page(P7_FIELD, P7_SHEET, self.file("four.csv", FOUR_DECIMALS), self.file(*UNUSED[0][:2]), scheme=scheme)
            with self.subTest(scheme):
                self.assertEqual([], page.js(CONTRASTS))

    def test_in_the_colours_of_the_system_nothing_is_told_by_colour_alone(self):
        page = self.page(P7_FIELD, P7_SHEET)
        page.call("Emulation.setEmulatedMedia", features=[{"name": "forced-colors", "value": "active"}])
        self.assertTrue(page.js("matchMedia('(forced-colors: active)').matches"))
        self.assertEqual("Computed rightly", page.text(".mood"))
        style = "getComputedStyle(document.querySelector('{}'){}).{}"
        for selector, pseudo, name, value in [
            ("td.greatest", "", "outlineStyle", "solid"),
            (".card", "", "borderTopStyle", "solid"),
            (".button.primary", "", "borderTopStyle", "solid"),
        ]:
            self.assertEqual(value, page.js(style.format(selector, pseudo, name)))
        # A bar has the colour of the text.
        bar = page.js(style.format("td:not(.greatest) .bar", ", '::before'", "backgroundColor"))
        self.assertEqual(page.js(style.format("td:not(.greatest)", "", "color")), bar)
        # So have dots and diamonds, which differ in form.
        for selector, name in (("path", "stroke"), ("polygon", "fill"), ("text", "fill")):
            self.assertEqual(bar, page.js(style.format(f".picture {selector}", "", name)))

    def test_all_is_reached_by_keyboard(self):
        page = self.page(FIELD, P7_FIELD, SHEET)
        page.js("document.querySelectorAll('details').forEach(part => { part.open = true })")
        page.settle()
        page.js("document.activeElement.blur()")
        reached = []
        for _ in range(page.js("document.querySelectorAll('*').length")):
            page.key(*TAB_KEY)
            here = page.js("{ const e = document.activeElement; e.id || e.textContent || e.tagName }")
            if reached and here == reached[0]:
                break
            reached.append(here)
        wanted = "[...document.querySelectorAll('button, input, select, summary')].filter(e => e.checkVisibility())"
        for name in page.js(f"{wanted}.map(e => e.id || e.textContent || e.tagName)"):
            self.assertIn(name, reached)

    def test_the_menu_of_what_is_saved_opens_and_closes_by_keyboard(self):
        page = self.page(P7_FIELD)
        is_open, here = "document.querySelector('.menu').open", "document.activeElement.textContent"
        page.js("document.querySelector('.menu summary').focus()")
        page.key(*ENTER_KEY)
        page.key(*TAB_KEY)
        self.assertEqual((True, "Save protocol"), (page.js(is_open), page.js(here)))
        page.key(*ESCAPE_KEY)
        self.assertEqual((False, "Save …"), (page.js(is_open), page.js(here)))
        page.key(*ENTER_KEY)
        for _ in page.texts(".menu button"):
            page.key(*TAB_KEY)
            self.assertTrue(page.js(is_open))
        page.key(*TAB_KEY)
        self.assertFalse(page.js(is_open))
        # What was pressed is done, and the menu is left where it was opened.
        page.js("document.querySelector('.menu summary').focus()")
        page.key(*ENTER_KEY)
        page.saved("Save directions (CSV)", "P7_directions.csv")
        self.assertEqual((False, "Save …"), (page.js(is_open), page.js(here)))
        self.assertEqual("Saved as P7_directions.csv.", page.text(".results [role=status]"))

    def test_a_screen_reader_is_told_of_all_that_is_reached_and_of_each_verdict(self):
        page = self.page(FIELD, SHEET)
        page.js("$('limits').open = true")
        page.fill("residual", "0")
        reached = [part for part in page.parts() if part.states.get("focusable") and part.role != "RootWebArea"]
        self.assertEqual([], [part for part in reached if not part.name])
        kinds = Counter(part.role for part in reached)
        self.assertEqual((5, 1), (kinds["textbox"], kinds["combobox"]))
        named = [part.name for part in page.parts() if part.role in ("article", "table", "image", "heading")]
        self.assertEqual(("station_check", True), (named[0], all(named)), named)
        self.assertIn("Station S1", named)
        told = [part for part in page.parts() if part.states.get("live") == "polite" and part.role == "status"]
        self.assertTrue(any(part.text.startswith("Station S1: Refused.") and part.states["atomic"] for part in told), told)
        page.fill("two-c", "-1")
        fields = [part for part in page.parts() if part.role == "textbox"]
        self.assertEqual(["true"] + 4 * ["false"], [part.states["invalid"] for part in fields])

    def test_a_file_goes_to_the_worker_once(self):
        """Whatever is asked of it: by number alone after that."""
        table = self.file("four.csv", FOUR_DECIMALS)
        page = self.page()
        page.js(
            "globalThis.posted = []; const { worker } = first, post = worker.postMessage.bind(worker);"
            " worker.postMessage = said => { posted.push(...(said.inputs ?? []).flatMap(one => one?.bytes ? [one.bytes.length] : [])); post(said) }"
        )
        page.give(P7_FIELD, table)
        page.saved("Save report (TXT)", "P7_report.txt")
        page.fill("within", "0.5")
        page.js("onbeforeprint()")
        sizes = [path.stat().st_size for path in (P7_FIELD, table)]
        self.assertEqual(sorted(sizes), sorted(page.js("posted")))

    def test_no_other_script_runs_in_the_page(self):
        page = self.page()
        page.js("{ const one = document.createElement('script'); one.textContent = 'ran = 1'; document.body.append(one) }")
        self.assertEqual("undefined", page.js("typeof ran"))

    # ------------------------------------------------------------ languages

    def test_every_text_is_spoken_in_each_language(self):
        page = self.page()
        texts, languages = page.js("TEXTS"), page.js("LANGUAGES")
        self.assertEqual(["en", "de", "fr"], list(languages))
        self.assertEqual({*languages}, {*texts})
        names = list(texts["en"])
        for language in languages:
            self.assertEqual(names, list(texts[language]))
            self.assertTrue(all(texts[language].values()))
        for name in names:
            with self.subTest(name):
                one = [texts[language][name] for language in languages]
                holes = [Counter(re.findall(r"\{\w+\}", text)) for text in one]
                self.assertEqual(1, len({*map(str, map(sorted, holes))}), one)
                self.assertEqual(1, len({text.count("|") for text in one}))
        scripts = [path.read_text() for path in (ROOT / "page").glob("*.js") if path.name != "texts.js"]
        used = {name for script in scripts for name in re.findall(r"'(\w+)'", script)}
        of_parts = {*re.findall(r'data-(?:text|label|placeholder)="(\w+)"', PAGE.read_text())}
        self.assertEqual({*names}, used & {*names} | of_parts)

    def test_a_sign_of_french_text_is_never_alone_on_a_line(self):
        page = self.page()
        own = "Object.keys(TEXTS.fr).flatMap(name => [1, 2].map(n => text(name, { n })))"
        of_faults = "Object.values(texts.fr).flatMap(({ what, todo }) => [what, todo]).map(typeset)"
        page.js("readFaults()")
        for said in page.js(f"speak('fr'), [...{own}, ...{of_faults}]"):
            self.assertNotRegex(said, "(?<!\u202f)[:;?!»]|«(?!\u202f)")

    def test_no_text_of_the_page_is_without_its_translations(self):
        apart = FOUR_DECIMALS.replace(b"278.8606", b"278.8616")
        files = [P7_SHEET, self.file("four.csv", FOUR_DECIMALS), self.file("apart.csv", apart), self.file(*UNUSED[0][:2])]
        page = self.page(P7_FIELD, *files, self.plain(), self.rain())
        self.assertEqual("1 refused; 2 to do", page.text("#verdict"))
        for part in ("details", "#again", "#release"):
            page.js(f"document.querySelectorAll('{part}').forEach(e => {{ e.open = true; e.hidden = false }})")
        page.js(BRACKETS)
        page.settle()
        self.assertEqual([], page.js(PLAIN_TEXTS))
        self.assertEqual([], [label for label in page.js(PLAIN_LABELS) if label])

    def test_the_language_is_chosen_by_hand(self):
        page = self.page(P7_FIELD, P7_SHEET)
        for code, headline in [
            ("de", "Bestätigt. Größte Verbesserung 0,320 mgon, Satz 4, TOWER."),
            ("fr", "Accepté. Plus grand résidu 0,320 mgon, série 4, TOWER."),
            ("en", P7_HEADLINE),
        ]:
            page.js(f"languages.value = '{code}'; languages.onchange()")
            page.settle()
            self.assertEqual((headline, code), (page.text(".headline"), page.js("document.documentElement.lang")))
            # What the program says stays as it is, and is said to be English.
            self.assertEqual((P7_LINE, "en"), (page.text(".exact samp"), page.js("document.querySelector('samp').lang")))

    def speak(self, page, code):
        """Has the page speak a language."""
        page.js(f"languages.value = '{code}'; languages.onchange()")
        page.settle()

    def test_each_fault_is_told_in_each_language(self):
        page = self.page()
        names = page.js(
            "readFaults().then(() => Promise.all(Object.keys(texts.en).map(name => explanationOf(name))))"
            ".then(all => all.flatMap(({ names }) => names))"
        )
        self.assertGreater(len(names), 80)
        told = {
            code: page.js(
                f"speak('{code}'), Promise.all({json.dumps(names)}.map(name => explanationOf(name)))"
                ".then(all => all.map(one => toldOf(one)))"
            ) for code in page.js("Object.keys(LANGUAGES)")
        }
        for code, all_of in told.items():
            for name, one, english in zip(names, all_of, told["en"]):
                with self.subTest(code, name=name):
                    self.assertTrue(one["what"] and one["todo"])
                    self.assertEqual((code == "en", english["isByCopy"]), (one["isOfProgram"], one["isByCopy"]))
                    self.assertEqual(code == "en", one["what"] == english["what"])

    def test_a_refusal_speaks_the_language_of_the_page_alone(self):
        """But for the program's line and what it says in full, which is folded."""
        fault = self.file("fault.gsi", FIELD.read_bytes().replace(b"25000010", b"2500001X", 1))
        table = self.file("row.csv", b"TOWER,0\nNOBODY,1\n")
        page = self.page(fault, P7_FIELD, table)
        for code, said in [
            ("de", ("Zurückgewiesen. Ein Winkel besteht nicht nur aus Ziffern.", "Zurückgewiesen. Eine Zeile der Tabelle nennt kein Ziel der Station.")),
            ("fr", ("Refusé. Un angle n’a pas que des chiffres.", "Refusé. Une ligne de la table ne nomme aucun point visé de la station.")),
        ]:
            self.speak(page, code)
            with self.subTest(code):
                self.assertEqual([*said], page.texts(".answer .headline"))
                todo = page.js("texts[spoken()]['Hz Digits'].todo")
                self.assertTrue(page.text(".todo").endswith(todo), page.text(".todo"))
                for english in ("angle", "names no target", "What to do"):
                    self.assertNotIn(english, page.js("$('answers').innerText").replace("un angle", "").replace("Un angle", ""))
                printed = self.printed_text(page)
                for one in (*said, todo):
                    self.assertIn(one, printed)

    def test_numbers_have_the_decimal_sign_of_the_language(self):
        page = self.page(P7_FIELD, P7_SHEET, self.file("four.csv", FOUR_DECIMALS))
        page.fill("two-c", "2.5")
        words = "[...document.querySelectorAll('#answers .headline, #in-force, .results td, .results svg text')].map(one => one.textContent)"
        english = page.js(words)
        saved = page.saved("Save directions (CSV)", "P7_directions.csv")
        for code in ("de", "fr"):
            self.speak(page, code)
            with self.subTest(code):
                numbers = [re.findall(r"\d+[.,]\d+", one) for one in page.js(words)]
                self.assertEqual([re.findall(r"\d+[.,]\d+", one.replace(".", ",")) for one in english], numbers)
                self.assertGreater(len([one for one in numbers if one]), 50)
        self.assertEqual(saved, page.js("now.cards[0].results.directions.line").encode() + b"\n")

    # ------------------------------------------------------------ large files

    def test_a_field_file_of_16_megabytes_does_not_hold_the_window(self):
        data = bench.field_file(bench.Shape("large", *LARGE)).encode()
        self.assertGreater(len(data), 16_000_000)
        large = self.file("large.gsi", data)
        page = self.page()
        page.js(WATCH)
        start = page.js("performance.now()")
        page.give(large)
        self.assertLess(page.js("performance.now()") - start, SOON)
        self.assertEqual(LARGE[0], len(page.texts(".card")))
        self.assertLess(page.js("longest"), HELD)

    def test_many_stations_are_drawn_slice_by_slice_and_first_what_is_in_sight(self):
        """With another language and another limit what the user did stays, and where it was."""
        page, card = self.page(), f"document.querySelectorAll('.card')[{NTH}]"
        page.js(SLICES)
        page.give(self.file("many.gsi", bench.field_file(bench.Shape("many", *MANY)).encode()))
        self.assertEqual(MANY[0], len(page.texts(".card")))
        self.assertEqual(2 * MANY[0], sum(page.js("slices")))
        page.js(f"{card}.querySelector('.results').open = true; {card}.scrollIntoView(); {card}.querySelector('summary').focus()")
        page.settle()
        look = f"[{card}.querySelector('.filled') !== null, document.activeElement === {card}.querySelector('summary'), {card}.querySelector('h2').textContent]"
        before, top = page.js(look), page.js(f"{card}.getBoundingClientRect().top")
        self.assertEqual([True, True], before[:2])
        drawn = page.js(f"(languages.value = 'de', languages.onchange(), [{card}, {card}.parentElement.lastChild].map(one => one.lang))")
        self.assertEqual(["de", "en"], drawn)
        page.settle()
        self.assertEqual({"de"}, {*page.js("[...document.querySelectorAll('.card')].map(one => one.lang)")})
        self.assertEqual(before, page.js(look))
        page.fill("within", "0.5")
        self.assertEqual(before, page.js(look))
        self.assertAlmostEqual(top, page.js(f"{card}.getBoundingClientRect().top"), delta=2)
        self.assertGreaterEqual(sum(page.js("slices")), 6 * MANY[0])
        self.assertLessEqual(max(page.js("slices")), SLICE)
        # As long as some are those of an earlier state, none can be used.
        stale = "$('answered').matches('.stale')"
        self.assertTrue(page.js(f"go({{ cards: now.cards.map(one => ({{ ...one }})) }}), {stale}"))
        page.settle()
        self.assertFalse(page.js(stale))
        self.assertEqual([], page.complaints())

    def test_what_is_stopped_leaves_nothing_green_that_was_not_judged(self):
        """A file of a station that was not reached, and one whose field file was not."""
        page = self.page()
        second, other = self.file("second.csv", SHEET.read_bytes()), self.file("other.gsi", P7_FIELD.read_bytes())
        page.js(STOP_AT % json.dumps("second.csv"))
        page.give(FIELD, SHEET, second)
        self.assertEqual("Stopped. What was not answered was not checked.", page.text("#verdict"))
        self.assertEqual(["open", "Station S1"], self.cards(page)[0][:2])
        self.assertIn("Not checked, since the work was stopped: second.csv.", page.text(".card"))
        page.empty()
        page.js(STOP_AT % json.dumps("other.gsi"))
        page.give(FIELD, other, SHEET, self.file("other.csv", P7_SHEET.read_bytes()))
        self.assertEqual(["open"] * 3, [card[0] for card in self.cards(page)])
        for name in (SHEET.name, "other.gsi", "other.csv"):
            self.assertIn(name, page.text("#answers"))
        with page.answered():
            page.js("$('again').onclick()")
        self.assertEqual(["good", "good"], [card[0] for card in self.cards(page)])

    def test_what_is_under_way_can_be_stopped(self):
        large = self.file("large.gsi", bench.field_file(bench.Shape("large", *LARGE)).encode())
        page = self.page(FIELD, SHEET)
        page.js(STOP_AT % json.dumps("large"))
        page.give(large)
        self.assertEqual("Stopped. What was not answered was not checked.", page.text("#verdict"))
        with page.answered():
            page.js("$('again').onclick()")
        self.assertEqual(LARGE[0] + 1, len(page.texts(".card")))

    def test_a_browser_that_cannot_run_the_module_is_told_so(self):
        text, module = PAGE.read_text(), base64.b85encode(gzip.compress(b"\0asm\1\0\0\0\5\3\1\4")).decode()
        start = text.index('base85">') + len('base85">')
        broken = text[:start] + module + text[text.index("</script>", start) :]
        page = browser.Page(self.file("broken.html", broken.encode()))
        self.addCleanup(page.close)
        for files in [(), (FIELD,)]:
            if files:
                page.give(*files)
            self.assertTrue(page.text("#verdict").startswith("This browser cannot run the check: it is too old."))
            # No files are asked for in vain.
            self.assertFalse(page.js("document.querySelector('.add').checkVisibility()"))

    def test_the_page_names_the_module_that_is_in_it(self):
        page = self.page()
        module = gzip.decompress(base64.b85decode(page.text("#module")))
        self.assertIn(hashlib.sha256(module).hexdigest(), page.text("footer small"))
        self.assertTrue(page.text("footer small").startswith(f"station_check, version {manuals.release()[0]} ("))


# The texts whose contrast to what is behind them is below 4.5.
CONTRASTS = """(() => {
  const paint = document.createElement('canvas').getContext('2d', { willReadFrequently: true });
  const rgba = colour => {
    paint.clearRect(0, 0, 1, 1);
    paint.fillStyle = colour;
    paint.fillRect(0, 0, 1, 1);
    return [...paint.getImageData(0, 0, 1, 1).data];
  };
  const light = ([r, g, b]) => [r, g, b].map(v => v / 255)
    .map(v => v <= 0.04045 ? v / 12.92 : ((v + 0.055) / 1.055) ** 2.4)
    .reduce((sum, v, nth) => sum + v * [0.2126, 0.7152, 0.0722][nth], 0);
  const behind = e => {
    for (; e; e = e.parentElement) {
      const found = rgba(getComputedStyle(e).backgroundColor);
      if (found[3] > 250) return found;
    }
    return [255, 255, 255];
  };
  const weak = [];
  for (const e of document.querySelectorAll('body *')) {
    if (!e.checkVisibility() || e.closest('#release')) continue;
    if (![...e.childNodes].some(node => node.nodeType === 3 && node.data.trim())) continue;
    // (letters of the picture have a stripe behind them at the worst)
    const stripe = e.closest('svg')?.querySelector('rect');
    const [a, b] = stripe ? [light(rgba(getComputedStyle(e).fill)), light(rgba(getComputedStyle(stripe).fill))]
      : [light(rgba(getComputedStyle(e).color)), light(behind(e))];
    const contrast = (Math.max(a, b) + 0.05) / (Math.min(a, b) + 0.05);
    if (contrast < 4.5) weak.push(`${e.tagName} ${e.className}: ${contrast.toFixed(2)}: ${e.textContent.slice(0, 40)}`);
  }
  return weak;
})()"""


if __name__ == "__main__":
    unittest.main()
