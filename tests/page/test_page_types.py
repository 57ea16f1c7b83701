"""The scripts of the page have the types that their comments say, as far as tsc finds."""

import shutil
import unittest

from program import ROOT, TimedTest, answer_to


class PageTypesTest(TimedTest):
    @unittest.skipUnless(shutil.which("tsc"), "no tsc is found")
    def test_the_scripts_have_the_types_that_they_say(self):
        status, said, _ = answer_to(["tsc", "-p", ROOT / "page"])
        self.assertEqual((0, ""), (status, said.decode()))


if __name__ == "__main__":
    unittest.main()
