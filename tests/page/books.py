"""Workbooks of a spreadsheet, as small as they can be."""

import zipfile
from pathlib import Path

MAIN = "http://schemas.openxmlformats.org/spreadsheetml/2006/main"
LINKS = "http://schemas.openxmlformats.org/officeDocument/2006/relationships"
PACKAGE = "http://schemas.openxmlformats.org/package/2006/relationships"

# The first sheet lies second in the archive, by the path that its link has.
RELATIONS = (
    f'<Relationships xmlns="{PACKAGE}"><Relationship Id="rId1" Target="worksheets/sheet1.xml"/>'
    '<Relationship Id="rId2" Target="/xl/worksheets/sheet2.xml"/></Relationships>'
)

# From what column and row on the cells stand.
COLUMNS, FIRST_ROW = "BCDE", 3


def write(path: Path, rows: list[list[str | float]], prefix: str = "", packed: bool = True) -> Path:
    """Writes a workbook with these rows on its first sheet, and answers its path. Texts are shared, and
    each says how it is read, too; numbers are as a computer keeps them."""
    shared = sorted({cell for row in rows for cell in row if isinstance(cell, str)})
    space = f'xmlns{":" + prefix[:-1] if prefix else ""}="{MAIN}"'

    def part(name: str, inside: str, more: str = "") -> str:
        return f"<{prefix}{name}{more}>{inside}</{prefix}{name}>"

    def cell(column: str, number: int, value: str | float) -> str:
        place = f' r="{column}{number}"'
        if isinstance(value, str):
            return part("c", part("v", str(shared.index(value))), f'{place} t="s"')
        return part("c", part("v", repr(value)), place)

    lines = [
        part("row", "".join(cell(column, number, one) for column, one in zip(COLUMNS, row)), f' r="{number}"')
        for number, row in enumerate(rows, FIRST_ROW)
    ]
    texts = [part("si", part("t", text) + part("rPh", part("t", "read"))) for text in shared]
    sheets = [part("sheet", "", f' name="{name}" sheetId="{name}" r:id="rId{name}"') for name in "21"]
    parts = {
        "xl/workbook.xml": part("workbook", part("sheets", "".join(sheets)), f' {space} xmlns:r="{LINKS}"'),
        "xl/_rels/workbook.xml.rels": RELATIONS,
        "xl/worksheets/sheet1.xml": part("worksheet", "", f" {space}"),
        "xl/worksheets/sheet2.xml": part("worksheet", part("sheetData", "".join(lines)), f" {space}"),
        "xl/sharedStrings.xml": part("sst", "".join(texts), f" {space}"),
    }
    how = zipfile.ZIP_DEFLATED if packed else zipfile.ZIP_STORED
    with zipfile.ZipFile(path, "w", how) as book:
        for name, text in parts.items():
            book.writestr(name, f'<?xml version="1.0" encoding="UTF-8"?>{text}')
    return path
