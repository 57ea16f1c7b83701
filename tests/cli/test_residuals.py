"""examples/residuals.py: the page that it fills in is made of the modules that draw now, and has the
residuals as they were printed; what `report --csv` doesn't print has none. tests/page looks at it in a
browser."""

import html
import subprocess
import sys
import unittest

from program import EXAMPLE, ROOT, ProgramTest, answer_of
from worked import REPORT_ROWS, RESIDUALS, edited

sys.path.insert(0, str(ROOT / "page"))
import scripts  # noqa: E402

SCRIPT = ROOT / "examples" / "residuals.py"

NOTHING = "residuals.py: standard input has no residuals: nothing is drawn\n"
NOT_THESE = "residuals.py: standard input is not what 'station_check report --csv' prints\n"


def drawn(rows: bytes, name: str = "S1") -> tuple[int, str, str]:
    """What the drawing of these rows answers."""
    command = [sys.executable, str(SCRIPT), name]
    done = subprocess.run(command, input=rows, capture_output=True, timeout=60)
    return done.returncode, done.stdout.decode(), done.stderr.decode()


def printed_in(page: str) -> str:
    """The text that stands in a page, as the program printed it."""
    return html.unescape(page.partition('<pre id="printed">')[2].partition("</pre>")[0])


class ResidualsTest(ProgramTest):
    def test_the_page_that_is_filled_in_is_of_the_modules_that_draw_now(self):
        """Where this fails, `python3 page/scripts.py` makes it anew."""
        page = scripts.RESIDUALS.read_text()
        self.assertEqual(scripts.residuals_page(), page)
        for name in scripts.SCRIPTS["residuals"][1:]:
            text = (ROOT / "page" / name).read_text()
            self.assertIn(scripts.dense(scripts.bare(text)), page)

    def test_a_page_has_the_residuals_as_they_were_printed(self):
        status, rows, _ = answer_of(["report", "--csv", EXAMPLE, "S1"])
        self.assertEqual((0, REPORT_ROWS), (status, rows))
        status, page, said = drawn(rows)
        self.assertEqual((0, ""), (status, said))
        self.assertEqual(RESIDUALS.decode(), printed_in(page))
        self.assertIn("<title>S1</title>", page)

    def test_no_name_ends_the_text_or_takes_the_place_of_another(self):
        for name in ["</pre><b>&", "@STATION@", "@RESIDUALS@", "<!--"]:
            with self.subTest(name):
                rows, shown = (text.replace(b",B,", f",{name},".encode()) for text in [REPORT_ROWS, RESIDUALS])
                status, page, _ = drawn(rows, name)
                self.assertEqual((0, shown.decode()), (status, printed_in(page)))
                self.assertIn(f"<title>{html.escape(name)}</title>", page)

    def test_rows_of_the_field_file_are_passed_over(self):
        further = [f"recorded,12,{content}{',' * 10}\n" for content in ["00345678", "00345678"]]
        further.append(f"file,field.gsi,{'0' * 64}{',' * 10}\n")
        self.assertEqual(drawn(REPORT_ROWS), drawn(REPORT_ROWS + "".join(further).encode()))
        self.assertEqual((1, "", NOT_THESE), drawn(REPORT_ROWS + b"recorded,12,00345678\n"))

    def test_rows_may_end_in_cr_lf(self):
        self.assertEqual(drawn(REPORT_ROWS), drawn(REPORT_ROWS.replace(b"\n", b"\r\n")))

    def test_a_name_in_quotes_stays_in_them(self):
        rows, shown = (text.replace(b",B,", b',"B,""1",') for text in [REPORT_ROWS, RESIDUALS])
        status, page, _ = drawn(rows)
        self.assertEqual((0, shown.decode()), (status, printed_in(page)))

    def test_a_refused_station_has_no_page(self):
        status, rows, _ = answer_of(["report", "--csv", EXAMPLE, "S2"])
        self.assertEqual(1, status)
        self.assertEqual((1, "", NOTHING), drawn(rows))
        self.assertEqual((1, "", NOTHING), drawn(REPORT_ROWS.splitlines(keepends=True)[0]))

    def test_what_a_report_of_rows_does_not_have_has_no_page(self):
        _, *rows = REPORT_ROWS.splitlines(keepends=True)
        for text in [
            b"".join(rows),
            edited(REPORT_ROWS, (b"adjusted", b"other")),
            edited(REPORT_ROWS, (b"-0.005", b"-0.0051")),
            edited(REPORT_ROWS, (b"-0.005", b"")),
            REPORT_ROWS[:-8],
            REPORT_ROWS + rows[0],
            REPORT_ROWS + b"S1,3,C\n",
            RESIDUALS,
            b"\xff\n\xff\n",
        ]:
            with self.subTest(text):
                self.assertEqual((1, "", NOT_THESE), drawn(text))

    def test_a_name_of_a_station_is_needed(self):
        command = [sys.executable, str(SCRIPT)]
        done = subprocess.run(command, input=REPORT_ROWS, capture_output=True, timeout=60)
        self.assertEqual((2, b""), (done.returncode, done.stdout))


if __name__ == "__main__":
    unittest.main()
