"""What is done at the page in every browser but Chromium, which has tests of its own, and what is then told."""

import tempfile
from pathlib import Path

import books
from driven import Driven
from program import EXAMPLE, EXAMPLE_SHEET, EXAMPLE_TABLE, TimedTest
from test_calls import EXAMPLES, JOB

P7 = "Station P7: Accepted. Greatest residual 0.320 mgon, set 4, TOWER."
S1 = "Station S1: Accepted. Greatest residual 0.005 mgon, set 1, A."
WRONG = "\u201cResiduals at most, in mgon\u201d: a number from 0 to 10, in steps of 0.005"

AGREES = "Agrees. 2 targets within 0 mgon of the least-squares directions; the limit is 0.01 mgon."

# The directions of P7 as an office in Germany or Austria exports them, with four decimals.
FOUR_DECIMALS = "Ziel;Hz\nTOWER;0,0000\nP3;64,5213\nMAST;139,4045\nP8;212,7572\nCHURCH;278,8606\nP12;345,2092\n"

# What is done at the page, and the verdict that is then told.
STEPS = [
    (("give", EXAMPLES[0]), "Station P7: Read without a fault: 4 sets, 6 targets, 22 directions."),
    (("give", EXAMPLES[1]), P7),
    (("press", "#remove-all"), "Ready for your files."),
    (("drop", *EXAMPLES[:2]), P7),
    (("press", "#remove-all"), "Ready for your files."),
    (("give", EXAMPLE_SHEET), "Add the field file (GSI) too: without it nothing can be checked."),
    (("give", EXAMPLE), S1),
    (("press", "#limits summary"), S1),
    (("fill", "residual", 0), "Station S1: Refused. A residual is above its limit."),
    (("fill", "residual", 11), WRONG),
    (("fill", "residual", "0.005"), S1),
    (("give", EXAMPLE_TABLE), f"{S1} {AGREES}"),
    (("give", EXAMPLES[0]), "1 refused; 1 computed rightly"),
    (("fill", "residual", 10), "1 read, not compared; 1 computed rightly"),
    (("give", EXAMPLES[2]), "2 computed rightly"),
    (("press", "#remove-all"), "Ready for your files."),
    (("give", JOB), "2 read, not compared"),
]


class StepsTest(TimedTest):
    """The tests of a browser that `page` opens the page in."""

    def page(self) -> Driven:
        raise NotImplementedError

    def each_step_has_its_verdict(self):
        page = self.page()
        for (do, *words), verdict in STEPS:
            getattr(page, do)(*words)
            self.assertEqual(verdict, page.wait_text("#verdict", verdict), words)

    def a_job_without_codes_is_named_and_compared_with_a_table_of_four_decimals(self):
        """And with a workbook that has the same."""
        folder = tempfile.TemporaryDirectory(prefix="page-")
        self.addCleanup(folder.cleanup)
        job, table = Path(folder.name, "job.gsi"), Path(folder.name, "directions.csv")
        job.write_bytes(b"".join(line for line in EXAMPLES[0].read_bytes().splitlines(True) if line[:3] != b"*41"))
        table.write_text(FOUR_DECIMALS)
        page = self.page()
        page.drop(job)
        unnamed = "Nothing was checked yet: the station needs a name."
        self.assertEqual(unnamed, page.wait_text("#verdict", unnamed))
        page.js("const name = document.querySelector('.card input'); name.value = 'P7'; name.form.requestSubmit()")
        read = "Station P7: Read without a fault: 4 sets, 6 targets, 22 directions."
        self.assertEqual(read, page.wait_text("#verdict", read))
        agrees = "Station P7: Agrees. 6 targets within 0.025 mgon of the least-squares directions; the limit is 0.055 mgon."
        rows = [line.replace(",", ".").split(";") for line in FOUR_DECIMALS.splitlines()[1:]]
        book = books.write(Path(folder.name, "book.xlsx"), [[name, float(gon)] for name, gon in rows])
        for one, said in ((table, agrees), (book, f"{agrees} {agrees.removeprefix('Station P7: ')}")):
            page.drop(one)
            self.assertEqual(said, page.wait_text("#verdict", said))
