"""Tables of P7 as clients really printed them, and what `compare` says of each: whether it agrees is
worked from the exact fractions of its sheet."""

import unittest
from dataclasses import replace

import model
from program import ProgramTest
from test_compare import P7, agrees, judged, told
from worked import refused

# Each is a print, and how far it is apart with its limit, in units of 0.001 mgon, or its refusal.
PRINTS: list[tuple[str, bytes, tuple[int, int] | str]] = [
    (
        "R's print of a named vector",
        b"    TOWER        P3      MAST        P8    CHURCH       P12 \n"
        b"  0.00000  64.52134 139.40454 212.75719 278.86059 345.20919 \n",
        "table row 1: Fields",
    ),
    (
        "R's paste of five decimals",
        b"TOWER 0\nP3 64.52134\nMAST 139.40454\nP8 212.75719\nCHURCH 278.86059\nP12 345.20919\n",
        (4, 10),
    ),
    (
        "R's print with ten digits",
        b" target   direction\n  TOWER   0.0000000\n     P3  64.5213375\n   MAST 139.4045381\n"
        b"     P8 212.7571950\n CHURCH 278.8605917\n    P12 345.2091888\n",
        (1, 10),
    ),
    (
        "R's write.csv with its row numbers",
        b'"","target","direction"\n"1","TOWER",0\n"2","P3",64.5213375\n'
        b'"3","MAST",139.404538136161\n"4","P8",212.757195\n"5","CHURCH",278.860591707589\n'
        b'"6","P12",345.20918875\n',
        (1, 10),
    ),
    (
        "R's write.csv without them",
        b'"target","direction"\n"TOWER",0\n"P3",64.5213375\n"MAST",139.404538136161\n'
        b'"P8",212.757195\n"CHURCH",278.860591707589\n"P12",345.20918875\n',
        (1, 10),
    ),
    (
        "R's write.table",
        b"target direction\nTOWER 0\nP3 64.5213375\nMAST 139.404538136161\nP8 212.757195\n"
        b"CHURCH 278.860591707589\nP12 345.20918875\n",
        (1, 10),
    ),
    (
        "LibreOffice, computed cells that show four decimals",
        b"Target,Direction\nTOWER,0\nP3,64.5213375\nMAST,139.404538136161\nP8,212.757195\n"
        b"CHURCH,278.860591707589\nP12,345.20918875\n",
        (1, 10),
    ),
    (
        "LibreOffice, computed cells that show nine decimals",
        b"Target,Direction\nTOWER,0\nP3,64.5213375\nMAST,139.404538136161\nP8,212.757195\n"
        b"CHURCH,278.860591707589\nP12,345.20918875\n",
        (1, 10),
    ),
    (
        "LibreOffice, with a column and a row of blanks",
        b"Target,Direction,\nTOWER,0,\nP3,64.5213375,\nMAST,139.404538136161,\nP8,212.757195,\n"
        b"CHURCH,278.860591707589,\nP12,345.20918875,\n,,\n",
        (1, 10),
    ),
    (
        "LibreOffice in German, computed cells with tabs",
        b"Target\tDirection\nTOWER\t0\nP3\t64.5213375\nMAST\t139.404538136161\nP8\t212.757195\n"
        b"CHURCH\t278.860591707589\nP12\t345.20918875\n",
        (1, 10),
    ),
    (
        "degrees with minutes and seconds after the point",
        b"Point,Hz\nTOWER,0.000000\nP3,58.040913\nMAST,125.275070\nP8,191.285331\n"
        b"CHURCH,250.582832\nP12,310.411777\n",
        "compare: Apart 17398.706 mgon, limit 0.010 mgon",
    ),
    (
        "degrees with signs",
        b'Point;Hz\nTOWER;0\xc2\xb000\'00.00"\nP3;58\xc2\xb004\'09.13"\n'
        b'MAST;125\xc2\xb027\'50.70"\nP8;191\xc2\xb028\'53.31"\nCHURCH;250\xc2\xb058\'28.32"\n'
        b'P12;310\xc2\xb041\'17.77"\n',
        "table row 2: Number",
    ),
    (
        "degrees with blanks",
        b"TOWER 0 00 00.00\nP3 58 04 09.13\nMAST 125 27 50.70\nP8 191 28 53.31\n"
        b"CHURCH 250 58 28.32\nP12 310 41 17.77\n",
        "table: Columns 2 3",
    ),
    (
        "an empty row below the titles",
        b"Ziel;Richtung\n;\nTOWER;0,00000\nP3;64,52134\nMAST;139,40454\nP8;212,75719\n"
        b"CHURCH;278,86059\nP12;345,20919\n",
        (4, 10),
    ),
    (
        "a controller's list in German",
        b"Ziel;Hz;\nTOWER;0,00000;\nP3;64,52134;\nMAST;139,40454;\nP8;212,75719;\n"
        b"CHURCH;278,86059;\nP12;345,20919;\n",
        (4, 10),
    ),
    (
        "two columns of a controller's software",
        b"Point ID\tHz [gon]\nTOWER\t0.0000\nP3\t64.5213\nMAST\t139.4045\nP8\t212.7572\n"
        b"CHURCH\t278.8606\nP12\t345.2092\n",
        (25, 55),
    ),
    (
        "its degrees with signs and blanks",
        b'Point\tHz\nTOWER\t0\xc2\xb0 00\' 00.00"\nP3\t58\xc2\xb0 04\' 09.14"\n'
        b'MAST\t125\xc2\xb0 27\' 50.70"\nP8\t191\xc2\xb0 28\' 53.31"\n'
        b'CHURCH\t250\xc2\xb0 58\' 28.32"\nP12\t310\xc2\xb0 41\' 17.77"\n',
        "table row 2: Number",
    ),
    (
        "a network adjustment's table",
        b"Station;Target;Type;Observation a priori [gon];Sigma;Observation a posteriori [gon];Sigma a posteriori [mgon];Residual [mgon];T-prio;T-post\n"
        b"P7;TOWER;DIRECTION;0.000160;0,00030;0.000000;0.12;0.05;0.1;0.1\n"
        b"P7;P3;DIRECTION;64.521430;0,00030;64.521338;0.12;0.05;0.1;0.1\n"
        b"P7;MAST;DIRECTION;139.404395;0,00030;139.404538;0.12;0.05;0.1;0.1\n"
        b"P7;P8;DIRECTION;212.757150;0,00030;212.757195;0.12;0.05;0.1;0.1\n"
        b"P7;CHURCH;DIRECTION;278.860730;0,00030;278.860592;0.12;0.05;0.1;0.1\n"
        b"P7;P12;DIRECTION;345.209140;0,00030;345.209189;0.12;0.05;0.1;0.1\n",
        "table: Columns 4 5",
    ),
    (
        "a report in HTML",
        b"<table><tr><td>Point Id</td><td>Hz</td></tr><tr><td>TOWER</td><td>0.0000 g</td></tr>\n"
        b"<tr><td>P3</td><td>64.5213 g</td></tr>\n<tr><td>MAST</td><td>139.4045 g</td></tr>\n"
        b"<tr><td>P8</td><td>212.7572 g</td></tr>\n"
        b"<tr><td>CHURCH</td><td>278.8606 g</td></tr>\n"
        b"<tr><td>P12</td><td>345.2092 g</td></tr>\n</table>\n",
        "table row 2: Name",
    ),
    (
        "a table of Markdown",
        b"| Target | Direction |\n|---|---|\n| TOWER | 0.00000 |\n| P3 | 64.52134 |\n"
        b"| MAST | 139.40454 |\n| P8 | 212.75719 |\n| CHURCH | 278.86059 |\n"
        b"| P12 | 345.20919 |\n",
        (4, 10),
    ),
    (
        "Python's print of four decimals",
        b"TOWER,0.0000\nP3,64.5213\nMAST,139.4045\nP8,212.7572\nCHURCH,278.8606\nP12,345.2092\n",
        (25, 55),
    ),
    (
        "numpy's print of an array",
        b"[  0.          64.5213375  139.40453814 212.757195   278.86059171\n 345.20918875]\n",
        "table row 1: Fields",
    ),
    (
        "Python's print of numbers as they are",
        b"TOWER 0.0\nP3 64.5213375\nMAST 139.4045381361607\nP8 212.757195\n"
        b"CHURCH 278.86059170758926\nP12 345.20918875\n",
        (1, 10),
    ),
    (
        "numpy's savetxt of one column",
        b"0.000000000000000000e+00\n6.452133750000000134e+01\n1.394045381361607099e+02\n"
        b"2.127571949999999958e+02\n2.788605917075892648e+02\n3.452091887500000098e+02\n",
        "table row 1: Fields",
    ),
    (
        "Python's print with the unit",
        b"TOWER 0.00000 gon\nP3 64.52134 gon\nMAST 139.40454 gon\nP8 212.75719 gon\n"
        b"CHURCH 278.86059 gon\nP12 345.20919 gon\n",
        (4, 10),
    ),
    (
        "Octave's csvwrite of one column",
        b"0\n64.5213375\n139.4045381361607\n212.757195\n278.8605917075893\n345.20918875\n",
        "table row 1: Fields",
    ),
    (
        "Octave's disp of format long",
        b"TOWER 0\nP3 64.52133750000000\nMAST 139.4045381361607\nP8 212.7571950000000\n"
        b"CHURCH 278.8605917075893\nP12 345.2091887500000\n",
        (1, 10),
    ),
    (
        "Octave's mat2str",
        b"TOWER,0\nP3,64.5213375\nMAST,139.4045381\nP8,212.757195\nCHURCH,278.8605917\n"
        b"P12,345.2091888\n",
        (1, 10),
    ),
    (
        "Octave's printf of ten decimals",
        b"TOWER 0.0000000000\nP3 64.5213375000\nMAST 139.4045381362\nP8 212.7571950000\n"
        b"CHURCH 278.8605917076\nP12 345.2091887500\n",
        (1, 10),
    ),
    (
        "Octave's printf of six digits",
        b"TOWER 0\nP3 64.5213\nMAST 139.405\nP8 212.757\nCHURCH 278.861\nP12 345.209\n",
        "compare: Apart 0.329 mgon, limit 0.055 mgon",
    ),
    (
        "pandas with a format of six decimals",
        b"target,direction\nTOWER,0.000000\nP3,64.521338\nMAST,139.404538\nP8,212.757195\n"
        b"CHURCH,278.860592\nP12,345.209189\n",
        (1, 10),
    ),
    (
        "pandas' to_csv with its row numbers",
        b",target,direction\n0,TOWER,0.0\n1,P3,64.5213375\n2,MAST,139.4045381361607\n"
        b"3,P8,212.757195\n4,CHURCH,278.86059170758926\n5,P12,345.20918875\n",
        (1, 10),
    ),
    (
        "pandas' to_string",
        b"target  direction\n TOWER   0.000000\n    P3  64.521338\n  MAST 139.404538\n"
        b"    P8 212.757195\nCHURCH 278.860592\n   P12 345.209189\n",
        (1, 10),
    ),
    (
        "Python's round to six decimals",
        b"TOWER,0.0\nP3,64.521338\nMAST,139.404538\nP8,212.757195\nCHURCH,278.860592\n"
        b"P12,345.209189\n",
        (1, 10),
    ),
    (
        "scipy's print of a result",
        b"     message: `gtol` termination condition is satisfied.\n     success: True\n"
        b"      status: 1\n         fun: [-1.343e-04 -6.685e-05 ...  2.715e-04  3.357e-05]\n"
        b"           x: [ 6.750e-05  3.031e-04  2.050e-04  2.171e-05  2.087e-04\n"
        b"               -1.343e-04 -1.699e-04 -1.559e-05  3.198e-04]\n"
        b"        cost: 2.8896131882562856e-07\n"
        b"         jac: [[ 0.000e+00  0.000e+00 ... -0.000e+00  0.000e+00]\n"
        b"               [ 1.000e+00  0.000e+00 ... -0.000e+00  0.000e+00]\n"
        b"               ...\n"
        b"               [ 0.000e+00  0.000e+00 ... -0.000e+00  1.000e+00]\n"
        b"               [ 0.000e+00  0.000e+00 ... -0.000e+00  1.000e+00]]\n"
        b"        grad: [ 1.301e-18  1.084e-19  1.952e-18  7.589e-19  1.247e-18\n"
        b"                1.802e-18  2.060e-18  6.234e-19  1.084e-18]\n"
        b"  optimality: 2.0599841277224584e-18\n"
        b" active_mask: [ 0.000e+00  0.000e+00  0.000e+00  0.000e+00  0.000e+00\n"
        b"                0.000e+00  0.000e+00  0.000e+00  0.000e+00]\n        nfev: 2\n"
        b"        njev: 2\n",
        "table row 2: Number",
    ),
    (
        "a row of the standard deviation below",
        b"Ziel;Richtung\nTOWER;0,00000\nP3;64,52134\nMAST;139,40454\nP8;212,75719\n"
        b"CHURCH;278,86059\nP12;345,20919\n\ns0;0,00021\n",
        (4, 10),
    ),
    (
        "blanks at the ends of lines",
        b"TOWER\t0.00000   \r\nP3\t64.52134   \r\nMAST\t139.40454   \r\nP8\t212.75719   \r\n"
        b"CHURCH\t278.86059   \r\nP12\t345.20919   \r\n",
        (4, 10),
    ),
    (
        "a byte order mark",
        b"\xef\xbb\xbfTarget;Direction\r\nTOWER;0.00000\r\nP3;64.52134\r\nMAST;139.40454\r\n"
        b"P8;212.75719\r\nCHURCH;278.86059\r\nP12;345.20919\r\n",
        (4, 10),
    ),
]


# What is told of a print that was read by its columns: those of targets and of directions, the rows
# that were passed over before the targets, among and after them, and the units behind numbers.
TOLD = {
    "R's write.csv with its row numbers": (2, 3, 1, 0, 0, 0),
    "LibreOffice, with a column and a row of blanks": (1, 2, 1, 0, 1, 0),
    "an empty row below the titles": (1, 2, 2, 0, 0, 0),
    "a table of Markdown": (2, 4, 2, 0, 0, 0),
    "Python's print with the unit": (1, 2, 0, 0, 0, 6),
    "pandas' to_csv with its row numbers": (2, 3, 1, 0, 0, 0),
    "a row of the standard deviation below": (1, 2, 1, 0, 1, 0),
}

# What is told of a print that agrees in another unit.
UNIT_TOLD = {
    "degrees with minutes and seconds after the point": model.UNIT_NOTES["dmmss"],
}

# Of a print that is refused as it is: an option, and what then is said and told of it.
STATED: list[tuple[str, str, tuple[int, int] | str, tuple[int, ...] | None]] = [
    ("degrees with minutes and seconds after the point", "--dmmss", (1, 10), None),
    ("degrees with signs", "--degrees", (1, 10), None),
    ("degrees with blanks", "--degrees", (1, 10), (1, 2, 0, 0, 0, 0)),
    ("its degrees with signs and blanks", "--degrees", (2, 10), None),
    ("a network adjustment's table", "--columns=2,6", (1, 10), (2, 6, 1, 0, 0, 0)),
    (
        "a network adjustment's table",
        "--columns=2,4",
        "compare: Apart 0.152 mgon, limit 0.010 mgon",
        (2, 4, 1, 0, 0, 0),
    ),
    ("a network adjustment's table", "--columns=2,3", "table row 2: Number", None),
    ("a network adjustment's table", "--columns=2,11", "table row 2: Fields", None),
    ("a network adjustment's table", "--columns=1,6", "table: Missing 1\nthe table lacks TOWER", None),
    ("Octave's printf of six digits", "--within=0.5mgon", (329, 500), None),
]


def judged_print(name, table, said, counts, *options):
    """A run over a print of P7."""
    line = refused(said) if isinstance(said, str) else agrees(*said, 6, "P7")
    run = judged(name, P7, table, line, *options, station="P7")
    return replace(run, stderr=(told(counts) if counts else b"") + run.stderr)


class ClientsTest(ProgramTest):
    def test_a_print_agrees_or_its_first_fault_is_named(self):
        for name, table, said in PRINTS:
            run = judged_print(name, table, said, TOLD.get(name))
            self.check([replace(run, stderr=UNIT_TOLD.get(name, b"") + run.stderr)])

    def test_a_print_that_is_refused_as_it_is_agrees_by_an_option(self):
        tables = {name: table for name, table, _ in PRINTS}
        for name, option, said, counts in STATED:
            self.check([judged_print(name, tables[name], said, counts, option)])


if __name__ == "__main__":
    unittest.main()
