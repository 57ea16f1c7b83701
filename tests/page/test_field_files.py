"""Field files as instruments write them, dropped onto the page one after the other: what is said of
each, and which of those that are refused a few clicks repair. FIELD_FILES names the folder in which they
lie; what each is stands in its name."""

import json
import os
import shutil
import unittest
from pathlib import Path

import browser
from program import TimedTest
from test_calls import PAGE, RT, make_page

FOLDER = Path(os.environ.get("FIELD_FILES", ""))

# Of each file, by the beginning of its name, what is clicked or stated; then how many sets, targets and
# directions its station has, or the verdict on several. `name` and `sets` state these, `leave` leaves the
# line out at which it is refused, `proposed` those lines that the page proposes, `same` and `another` say
# what a station is that is set up again, and `outside` leaves stations outside.
ANSWERED = {
    "01": (["name P7"], (4, 6, 24)),
    "03": (["name P7"], (3, 6, 18)),
    "05": (["name P7"], (4, 6, 22)),
    "07": (["name P7"], (3, 6, 18)),
    "11": (["name P7"], (2, 4, 8)),
    "12": ([], (2, 6, 12)),
    "14": (["name P7"], (3, 6, 18)),
    "18": (["proposed", "name P7"], (2, 6, 12)),
    "22": (["name P7"], (2, 6, 12)),
    "25": (["name P7"], (2, 6, 12)),
    "27": (["name P7"], (2, 4, 8)),
    "32": ([], (3, 4, 12)),
    "34": ([], (4, 6, 24)),
    "38": (["name P7"], (2, 6, 12)),
    "51": (["another"], "2 read, not compared"),
    "53": (["sets 3", "name P7"], (3, 2, 6)),
    "55": (["name P7"], (3, 6, 18)),
    "m01": (["outside"], "2 read, not compared"),
    "m03": (["outside"], "2 read, not compared"),
    "m05": (["outside"], "2 read, not compared"),
    "m07": ([], (2, 6, 12)),
    "m13": (["proposed"], (2, 6, 12)),
    "n01": ([], (1, 4, 4)),
    "n03": ([], (3, 6, 18)),
    "n05": ([], (3, 6, 18)),
    "n07": ([], (2, 6, 12)),
    "n09": ([], (2, 4, 8)),
    "n11": ([], (3, 4, 12)),
    "n13": (["another", "proposed"], "2 read, not compared"),
    "n15": ([], (4, 7, 24)),
    "n17": (["same"], (2, 6, 12)),
    "n21": ([], "8 read, not compared"),
    "n23": ([], "8 read, not compared"),
    "n25": ([], "8 read, not compared"),
    "n27": ([], "8 read, not compared"),
    "n29": (["proposed"], "2 read, not compared"),
    "n31": (["same"], (4, 6, 24)),
    "n33": ([], "60 read, not compared"),
    "n37": (["leave"], (3, 6, 18)),
    "n39": (["name P7"], (2, 4, 8)),
    "n41": (["same"], (4, 6, 24)),
    "n43": (["leave", "name P7"], (2, 4, 8)),
    "n45": (["proposed"], (1, 6, 6)),
    "n47": ([], (2, 4, 8)),
}

# Those that no click repairs, each with what is said: other units and values that were typed; names, sets
# and codes that the field book alone tells; and files without sets.
REFUSED = {
    "09": "An angle is not in gon with five decimals.",
    "16": "A target is read again in one face before the next set begins.",
    "20": "A set is opened on a station that had sets before.",
    "24": "An angle is not in gon with five decimals.",
    "29": "An angle has an input mode that is not accepted.",
    "30": "It has no reading with a direction",
    "36": "No station of the file has sets.",
    "40": "A set is opened without a number from 1 to 9999.",
    "42": "A set ends with another target than the first set.",
    "57": "A target is read again in one face before the next set begins.",
    "m09": "The zenith angles of S100 differ by 4699 mgon",
    "m11": "A set would have one target.",
    "n19": "A set has other targets than the first set of its station.",
    "n35": "No station of the file has sets.",
}

TYPED = "{ const field = document.querySelector('.card form input[type=%s]'); field.value = %s; field.oninput?.(); field.form.requestSubmit() }"
LEFT = "{ const form = document.querySelector('form.change%s'); form.querySelector('input').value = 'field book'; form.querySelector('%s').click() }"
AGAIN = "document.querySelectorAll('.card [role=group] button')[%d].click()"
CLICKS = {
    "name": lambda value: TYPED % ("text", json.dumps(value)),
    "sets": lambda value: TYPED % ("number", json.dumps(value)),
    "leave": lambda _: LEFT % ("", ":scope > button"),
    "proposed": lambda _: LEFT % (":has(.proposal)", ".proposal button"),
    "same": lambda _: AGAIN % 0,
    "another": lambda _: AGAIN % 1,
    "outside": lambda _: "[...document.querySelectorAll('.card > button')].at(-1).click()",
}


@unittest.skipUnless(os.environ.get("FIELD_FILES"), "FIELD_FILES names no folder of field files")
class FieldFilesTest(TimedTest):
    @classmethod
    def setUpClass(cls):
        super().setUpClass()
        if not browser.browser():
            raise unittest.SkipTest("no Chromium is found")
        if not shutil.which(RT):
            raise unittest.SkipTest("the toolchain that makes the page is missing")
        make_page()

    def test_each_is_answered_or_repaired_by_clicks_or_it_is_said_why_not(self):
        page = browser.Page(PAGE)
        self.addCleanup(page.close)
        files = {path.name.split("_")[0]: path for path in FOLDER.glob("*.gsi")}
        self.assertEqual({*ANSWERED, *REFUSED}, {*files})
        for key, path in sorted(files.items()):
            with self.subTest(path.name):
                page.empty()
                page.drop(path)
                clicks, expected = ANSWERED.get(key, ([], REFUSED.get(key)))
                for click in clicks:
                    what, _, value = click.partition(" ")
                    with page.answered():
                        page.js(CLICKS[what](value))
                self.assertEqual([], page.texts(".card.good"))
                if key in REFUSED:
                    self.assertIn(expected, page.text("#answers"))
                    self.assertEqual([], page.texts(".card.read, .proposal"))
                elif isinstance(expected, str):
                    self.assertEqual(expected, page.text("#verdict"))
                else:
                    sets, targets, directions = expected
                    said = f"Read without a fault: {sets} set{'s' * (sets > 1)}, {targets} targets, {directions} directions."
                    self.assertEqual([said], page.texts(".headline"))
        self.assertEqual([], page.complaints())


if __name__ == "__main__":
    unittest.main()
