"""The page in WebKit, which is the engine of Safari and of each browser on iPhone and iPad."""

import shutil
import unittest

import webkit
from driven import until
from steps import StepsTest
from test_calls import EXAMPLES, PAGE, RT, is_lowered, make_page


class PageInWebKitTest(StepsTest):
    @classmethod
    def setUpClass(cls):
        super().setUpClass()
        if not webkit.webkit():
            raise unittest.SkipTest("no WebKit is found, or no Xvfb")
        if not shutil.which(RT):
            raise unittest.SkipTest("the toolchain that makes the page is missing")
        make_page()
        if not is_lowered():
            raise unittest.SkipTest("the page was made without wasm-opt: its module has 64-bit memory")

    def page(self):
        """The page in a browser of its own."""
        page = webkit.Page(PAGE)
        self.addCleanup(page.close)
        return page

    def test_each_step_has_its_verdict(self):
        self.each_step_has_its_verdict()

    def test_a_job_without_codes_is_named_and_compared_with_a_table_of_four_decimals(self):
        self.a_job_without_codes_is_named_and_compared_with_a_table_of_four_decimals()

    def test_the_results_have_their_picture(self):
        page = self.page()
        page.give(EXAMPLES[0])
        self.assertTrue(until(lambda: page.text(".picture svg")))


if __name__ == "__main__":
    unittest.main()
