"""Rows for a spreadsheet that is set to German or French, with semicolons between cells and commas in
numbers: worked out by hand, beside the model, and opened by LibreOffice where that is found."""

import csv
import io
import shutil
import subprocess
import unittest
from random import Random
from xml.etree import ElementTree

import model
from against_model import AgainstModel, Case
from generated import SEED, station_to_adjust
from program import EXAMPLE, ROOT, SWEEP, ProgramTest, answer_of
from worked import field_file

STATIONS = 300 if SWEEP else 20

P7 = ROOT / "examples" / "station_p7.gsi"

P7_TABLE = ROOT / "examples" / "station_p7_directions.csv"

# Each is a field file, and its list as such rows after the titles.
LISTED = [
    ("2c below 0", field_file({1: [("A", 0, 19_998_000)]}), b"S1;1;A;399,990000;-20,00;0,00\n"),
    ("a name with a comma", field_file({1: [("A,1", 7, 20_000_007)]}), b"S1;1;A,1;0,000070;0,00;0,00\n"),
    ("a name with a semicolon", field_file({1: [("A;1", 7, 20_000_007)]}), b'S1;1;"A;1";0,000070;0,00;0,00\n'),
    ("a name with a quote", field_file({1: [('A"1', 7, 20_000_007)]}), b'S1;1;"A""1";0,000070;0,00;0,00\n'),
    ("a name with a point", field_file({1: [("A.1", 7, 20_000_007)]}), b"S1;1;A.1;0,000070;0,00;0,00\n"),
]

# Each prints rows: its words, and the places of the names in a row.
PRINTS = [
    (["list", "--csv", P7], {0, 2}),
    (["report", "--csv", P7, "P7"], {0, 2}),
    (["directions", P7, "P7"], {0}),
    (["differences", P7, "P7", P7_TABLE], {0}),
]

# What opens a file of rows: the separator, and the number of a language whose numbers are so.
OPENED = {
    "as English": (",", 1033),
    "as German": (";", 1031),
    "as French": (";", 1036),
}

ALONE = b"error: '--decimal-comma' says how rows are written: print rows with '--csv'\n"

OFFICE = shutil.which("soffice") or shutil.which("libreoffice")

# No row that is printed has more cells: empty ones at its end stand in a file as often as a sheet has columns.
MOST_CELLS = 20

# The names of a flat file of LibreOffice.
TABLE = "{urn:oasis:names:tc:opendocument:xmlns:table:1.0}"
CELL = "{urn:oasis:names:tc:opendocument:xmlns:office:1.0}"
TEXT = "{urn:oasis:names:tc:opendocument:xmlns:text:1.0}"


def value_of(cell):
    """What a spreadsheet took a cell for: a number, or a text."""
    if cell.get(f"{CELL}value-type") == "float":
        return float(cell.get(f"{CELL}value"))
    return "".join("".join(part.itertext()) for part in cell.iter(f"{TEXT}p"))


def values_of(row):
    """What a spreadsheet took the cells of a row for. Equal ones beside each other are written once."""
    return [
        value_of(cell)
        for cell in row.iter(f"{TABLE}table-cell")
        for _ in range(min(MOST_CELLS, int(cell.get(f"{TABLE}number-columns-repeated", 1))))
    ]


class SpreadsheetTest(ProgramTest):
    def test_rows_have_semicolons_and_decimal_commas(self):
        path = self.folder / "field.gsi"
        for name, file, rows in LISTED:
            path.write_bytes(file)
            with self.subTest(name):
                printed = b"station;set;target;direction;2c;2i\n" + rows
                self.assertEqual((0, printed, b""), answer_of(["list", "--csv", "--decimal-comma", path]))

    def test_the_cells_are_those_of_the_other_form(self):
        for words, names in PRINTS:
            plain = csv.reader(io.StringIO(answer_of(words)[1].decode()))
            other = answer_of([words[0], "--decimal-comma", *words[1:]])
            formed = csv.reader(io.StringIO(other[1].decode()), delimiter=";")
            self.assertEqual((0, b""), (other[0], other[2]))
            for cells, commas in zip(plain, formed, strict=True):
                turned = [cell if place in names else cell.replace(",", ".") for place, cell in enumerate(commas)]
                self.assertEqual(cells, turned)

    def test_directions_are_read_again(self):
        table = self.folder / "directions.csv"
        for decimals in range(1, 9):
            for field, station in [(EXAMPLE, "S1"), (P7, "P7")]:
                plain = answer_of(["directions", f"--decimals={decimals}", field, station])
                table.write_bytes(plain[1])
                agrees = answer_of(["compare", field, station, table])
                formed = answer_of(["directions", "--decimal-comma", f"--decimals={decimals}", field, station])
                table.write_bytes(formed[1])
                with self.subTest(station, decimals=decimals):
                    self.assertEqual((0, 0, 0), (plain[0], agrees[0], formed[0]))
                    self.assertEqual(agrees, answer_of(["compare", field, station, table]))

    def test_a_decimal_comma_stands_beside_rows(self):
        for words in [["list", EXAMPLE], ["report", EXAMPLE, "S1"], ["report", "--sha256", EXAMPLE, "S1"]]:
            status, stdout, stderr = answer_of([words[0], "--decimal-comma", *words[1:]])
            self.assertEqual((2, b""), (status, stdout), words)
            self.assertTrue(stderr.startswith(ALONE), stderr)
        for line in [["check", EXAMPLE, EXAMPLE], ["means", EXAMPLE, "S1"], ["words", EXAMPLE]]:
            self.assertEqual((2, b""), answer_of([line[0], "--decimal-comma", *line[1:]])[:2], line)

    @unittest.skipUnless(OFFICE, "no LibreOffice is found")
    def test_a_spreadsheet_opens_each_form(self):
        """Each number is that number in its cell, and each name is a text."""
        for words, names in PRINTS:
            for how, (separator, language) in OPENED.items():
                form = [] if separator == "," else ["--decimal-comma"]
                file = self.folder / f"{words[0]}.csv"
                file.write_bytes(answer_of([words[0], *form, *words[1:]])[1])
                setting = f"--infilter=CSV:{ord(separator)},34,76,1,,{language}"
                home = f"-env:UserInstallation=file://{self.folder}/office"
                command = [OFFICE, home, "--headless", setting, "--convert-to", "fods"]
                subprocess.run([*command, file], cwd=self.folder, check=True, capture_output=True, timeout=300)
                rows = list(ElementTree.parse(file.with_suffix(".fods")).iter(f"{TABLE}table-row"))
                plain = list(csv.reader(io.StringIO(answer_of(words)[1].decode())))
                for row, cells in zip(rows[1:], plain[1:]):
                    wanted = [cell if place in names else float(cell) for place, cell in enumerate(cells)]
                    with self.subTest(how, words=words):
                        self.assertEqual(wanted, values_of(row)[: len(wanted)])


class GeneratedTest(AgainstModel):
    def test_generated_stations_beside_the_model(self):
        for place in range(STATIONS):
            file = station_to_adjust(Random(f"{SEED} semicolons {place}"))
            for command in ["list --csv", "report --csv", "directions"]:
                self.compare([Case(f"{place}", command, file, decimal_comma=True)])
            stated = model.directions(file, b"S1", decimals=4)[1]
            self.compare([Case(f"{place}", "differences", file, stated, decimal_comma=True)])


if __name__ == "__main__":
    unittest.main()
