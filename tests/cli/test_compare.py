"""Tables of directions compared with field files: examples worked out by hand; tables as other
programs print them, in gon and in degrees, in other encodings too, and the limit that their decimals
tell; generated stations beside the model; `compare` accepts what `directions` prints with 6 decimals
or more."""

import unittest
from dataclasses import replace
from random import Random

import model
from against_model import AgainstModel, Case
from generated import SEED, station_to_adjust, table_of_station
from program import (
    EXAMPLE,
    EXAMPLE_TABLE,
    PROGRAM,
    ROOT,
    SWEEP,
    ProgramTest,
    Run,
    answer_in_shell,
    answer_of,
)
from test_directions import ABOVE, TWO_PARTS, both_faces, three_sets
from test_means import largest
from worked import AGREES, PARTS, STATION, TABLE, edited, field_file, refused, widened

STATIONS = 400 if SWEEP else 30


def how_far(by, limit):
    """How far a table is apart and its limit, in units of 0.001 mgon."""
    return "{}.{:03} mgon, limit {}.{:03} mgon".format(*divmod(by, 1000), *divmod(limit, 1000))


# The greatest residuals of the examples, in units of 0.001 mgon, and their numbers of sets.
GREATEST = {"S1": 5, "P7": 320}
SETS = {"S1": 2, "P7": 4}


def agrees(within, limit, targets=2, station="S1", greatest=None, sets=None):
    """The line of a table that agrees: of the examples where neither greatest residual nor number of
    sets is stated."""
    residual = "{}.{:03}".format(*divmod(GREATEST[station] if greatest is None else greatest, 1000))
    found = f"{how_far(within, limit)}, greatest residual {residual} mgon"
    sets = SETS[station] if sets is None else sets
    counted = f"{sets} set{'s' * (sets != 1)}, {targets} target{'s' * (targets != 1)}"
    return f"agrees {station}: {counted}, within {found}\n".encode()


def apart(by, limit):
    return refused(f"compare: Apart {how_far(by, limit)}")


def of_b(direction):
    """A table in which B has this direction."""
    return b"A,0\nB," + direction + b"\n"


P7 = (ROOT / "examples" / "station_p7.gsi").read_bytes()
P7_TABLE = (ROOT / "examples" / "station_p7_directions.csv").read_bytes()

ROTATED = b"A,100.0001\nB,150.0001\n"

AGREES_WITHIN_0 = agrees(0, 0)

# Each is a table for the example, what `--within` says or none, and the line of its verdict.
TABLES = [
    ("as it is printed", TABLE, None, AGREES),
    ("as few bytes as may be", of_b(b"50.00003"), "0", AGREES_WITHIN_0),
    ("the other order", b"B,50.00003\nA,0\n", "0", AGREES_WITHIN_0),
    ("all rotated by 100 gon", b"A,100\nB,150.00003\n", "0", AGREES_WITHIN_0),
    ("a minus", b"A,-0.00001\nB,50.00002\n", "0", AGREES_WITHIN_0),
    ("just below a circle", b"A,399.99999\nB,50.00002\n", "0", AGREES_WITHIN_0),
    ("just below a circle beside 0", b"A,399.99999\nB,50.00003\n", "5", agrees(5, 5)),
    ("and within less", b"A,399.99999\nB,50.00003\n", "4", apart(5, 4)),
    ("half the spread is 15", ROTATED, "10", apart(15, 10)),
    ("and within 14", ROTATED, "14", apart(15, 14)),
    ("and within 15", ROTATED, "15", agrees(15, 15)),
    ("and within 16", ROTATED, "16", agrees(15, 16)),
    ("and within 0.014 mgon", ROTATED, "0.014mgon", apart(15, 14)),
    ("and within 0.015 mgon", ROTATED, ".015mgon", agrees(15, 15)),
    ("half a unit", of_b(b"50.000031"), "1", agrees(1, 1)),
    ("half the ninth decimal", of_b(b"50.000030001"), "1", agrees(1, 1)),
    ("within 0", of_b(b"50.000030001"), "0", apart(1, 0)),
    ("half the ninth decimal above 10", of_b(b"50.000050001"), None, apart(11, 10)),
    ("a first direction as Python prints it", b"A,0.0\nB,50.00005\n", None, agrees(10, 10)),
    ("its decimal is not the finest", b"A,0.0\nB,50.00006\n", None, apart(15, 10)),
    ("one decimal that is not 0 once let it agree", b"A,0.1\nB,50.10006\n", None, apart(15, 10)),
    ("the largest limit", of_b(b"48.00003"), "1000000", agrees(1_000_000, 1_000_000)),
    ("above it", of_b(b"47.999999999"), "1000000", apart(1_000_016, 1_000_000)),
    ("half a circle", of_b(b"250.00003"), "1000000", apart(100_000_000, 1_000_000)),
    ("lines ended by CR LF", edited(TABLE, (b"\n", b"\r\n")), None, AGREES),
    ("no last line feed", TABLE[:-1], None, AGREES),
    ("lines without a byte", b"\n\n" + edited(TABLE, (b"B", b"\r\nB")), None, AGREES),
    ("a byte order mark", b"\xef\xbb\xbf" + TABLE, None, AGREES),
    ("quotes", b'"A","0"\n"B",50.00003\n', None, AGREES),
    ("titles", b"Name,Direction\n" + TABLE, None, AGREES),
    ("titles of semicolons", b"Punkt;Richtung, gon\nA;0,0\nB;50,00003\n", "0", AGREES_WITHIN_0),
    ("titles of blanks", b"Directions of S1\nA 0\nB 50.00003\n", "0", AGREES_WITHIN_0),
    ("titles as long as may be", b"x" * 1_048_500 + b",y\nA,0\nB,50.00003\n", "0", AGREES_WITHIN_0),
    ("semicolons", b"A;0\nB;50.00003\n", "0", AGREES_WITHIN_0),
    ("tabs", b"A\t0\nB\t50.00003\n", "0", AGREES_WITHIN_0),
    ("blanks", b"  A     0.00000\n  B    50.00003\n", "0", AGREES_WITHIN_0),
    ("decimal commas", b"A;0,00000\nB;50,00003\n", "0", AGREES_WITHIN_0),
    ("decimal commas in quotes", b'A,"0,00000"\nB,"50,00003"\n', "0", AGREES_WITHIN_0),
    ("decimal commas after blanks", b"A 0,00000\nB 50,00003\n", "0", AGREES_WITHIN_0),
    ("blanks around fields", b" A , 0 \nB\t,\t50.00003\t\n", "0", AGREES_WITHIN_0),
    ("blank fields at the end", b"A,0,\nB,50.00003, ,\n", "0", AGREES_WITHIN_0),
    *(
        (f"B as {text!r}", of_b(text), "0", AGREES_WITHIN_0)
        for text in [b"+50.00003", b"50.0000300000", b"050.00003", b" 50.00003 "]
    ),
    ("no digit before the point", b"A,.0\nB,50.00003\n", "0", AGREES_WITHIN_0),
    ("no digit after the point", b"A,0.\nB,50.00003\n", "0", AGREES_WITHIN_0),
    ("a full circle", b"A,400.0000\nB,50.00003\n", "0", AGREES_WITHIN_0),
    ("a full circle back", b"A,-400\nB,50.00003\n", "0", AGREES_WITHIN_0),
    ("more decimals than Python reads", of_b(b"50.00003" + b"0" * 5_000), "0", AGREES_WITHIN_0),
    ("a tenth decimal is left out, and counts", of_b(b"50.0000300001"), "1", agrees(1, 1)),
    ("and within 0", of_b(b"50.0000300001"), "0", apart(1, 0)),
    ("two units above, and half of them", of_b(b"50.000032"), "1", agrees(1, 1)),
    ("and ever so little more", of_b(b"50.0000320000001"), "1", apart(2, 1)),
    ("less by no more than may be left out", of_b(b"50.0000319999"), "1", apart(2, 1)),
    ("and by more", of_b(b"50.0000319977"), "1", agrees(1, 1)),
    ("a small digit far behind", of_b(b"50." + b"0" * 5_000 + b"1"), "15", apart(16, 15)),
    ("noise of a computed 0", b"A,5.684341886080802e-14\nB,50.000030000000007\n", None, agrees(1, 10)),
    ("noise below 0", b"A,-1.4210854715202004e-14\nB,50.00003\n", None, agrees(1, 10)),
    ("exponents", b"A,0.000000000000000000e+00\nB,5.000003e+01\n", "0", AGREES_WITHIN_0),
    ("exponents and decimal commas", b"A;0E+00\nB;5,000003E+01\n", "0", AGREES_WITHIN_0),
    ("an exponent with a minus", b"A,-1e-05\nB,50.00002\n", "0", AGREES_WITHIN_0),
    ("as many bytes as may be", TABLE + b"\n" * (model.LONGEST_TABLE - len(TABLE)), None, AGREES),
]

# Each is a table, and the line of its verdict where no limit is stated: its finest row tells it, and
# it is half a unit of the last decimal and 5, but 10 at least.
USUAL = [
    ("five decimals", of_b(b"50.00001"), agrees(10, 10)),
    ("and more", of_b(b"50.000009"), apart(11, 10)),
    ("five decimals of each", b"A,100.00010\nB,150.00010\n", apart(15, 10)),
    ("four decimals", ROTATED, agrees(15, 55)),
    ("four decimals and further", b"A,100.0001\nB,150.0000\n", apart(65, 55)),
    ("three decimals", b"A,0.000\nB,50.001\n", agrees(485, 505)),
    ("and further", b"A,0.000\nB,49.999\n", apart(515, 505)),
    ("two decimals", b"A,0.00\nB,50.01\n", agrees(4_985, 5_005)),
    ("and further", b"A,0.00\nB,49.99\n", apart(5_015, 5_005)),
    ("one decimal", b"A,0.1\nB,50.2\n", agrees(49_985, 50_005)),
    ("and further", b"A,0.1\nB,50.0\n", apart(50_015, 50_005)),
    ("four decimals beside six", b"A,0.0001\nB,50.000232\n", apart(51, 10)),
    ("five decimals beside four", b"A,0.00001\nB,50.0001\n", apart(30, 10)),
    ("three decimals beside four", b"A,0.0001\nB,50.001\n", apart(435, 55)),
    ("whole gon", b"A,0\nB,50\n", apart(15, 10)),
    ("whole gon with a point", b"A,0.\nB,50.\n", apart(15, 10)),
    ("a whole gon beside four decimals", of_b(b"50.0001"), agrees(35, 55)),
    ("and further", of_b(b"49.9999"), apart(65, 55)),
    ("decimals of 0 tell it", b"A,0.00000\nB,50.0001\n", apart(35, 10)),
    ("and with a minus", b"A,-0.0000\nB,50\n", agrees(15, 55)),
    ("and of a full circle", b"A,400.00000\nB,50.0001\n", apart(35, 10)),
    ("zeros are decimals", of_b(b"50.0000"), agrees(15, 55)),
    ("as many zeros as may be", of_b(b"50." + b"0" * 5_000), apart(15, 10)),
    ("a decimal comma", b"A;0,0000\nB;50,0000\n", agrees(15, 55)),
    ("a sign, blanks and titles", b"Name, 1.0 gon\n A, +0.0000\n B, -350.0000\n", agrees(15, 55)),
    ("titles tell nothing", b"Name,+1.000000 gon\nA,0.0000\nB,50.0000\n", agrees(15, 55)),
]


def p7(**others):
    """A table of P7: to five decimals as its example has them, but for these targets."""
    own = dict(row.split(",") for row in P7_TABLE.decode().splitlines())
    return "".join(f"{name},{others.get(name, text)}\n" for name, text in own.items()).encode()


# P7 to five decimals without zeros at the end, turned so that P3 is 64.5: right, and with CHURCH
# 40 mgon off.
TURNED = {"TOWER": "399.97866", "P3": "64.5", "MAST": "139.3832", "P8": "212.73586", "P12": "345.18785"}
TURNED_RIGHT = p7(**TURNED, CHURCH="278.83925")
TURNED_WRONG = p7(**TURNED, CHURCH="278.87925")

# P7 to six decimals but for its first direction, and the third 8 mgon off.
SIX_DECIMALS = p7(
    **{"TOWER": "0.00", "P3": "64.521338", "MAST": "139.412538"},
    **{"P8": "212.757195", "CHURCH": "278.860592", "P12": "345.209189"},
)

# Tables of which the row with the fewest decimals once set the limit: each named for the answer of
# then. The first are of S1, those of P7 are worked from the fractions of its sheet.
OF_S1_ONCE = [
    ("9.97 mgon off once agreed within 4985", b"A,0.00\nB,50.01000\n", apart(4_985, 10)),
    ("0.97 mgon off once agreed within 485", b"A,0.000\nB,50.00100\n", apart(485, 10)),
    ("0.10 mgon off once agreed within 51", b"A,0.0000\nB,50.000132\n", apart(51, 10)),
    ("0.07 mgon off once agreed within 35", b"A,0.0000000\nB,50.0001\n", apart(35, 10)),
]
OF_P7_ONCE = [
    ("right and without zeros, as once, but within 50,001", TURNED_RIGHT, agrees(4, 10, 6, "P7")),
    ("40 mgon off once agreed within 20000", TURNED_WRONG, apart(20_000, 10)),
    ("21 and 10 mgon off once agreed within 15668", p7(P3="64.5", CHURCH="278.87059"), apart(15_668, 10)),
    ("4.5 mgon off once agreed within 2272", p7(MAST="139.4"), apart(2_272, 10)),
    ("8 mgon off beside 0.00 once agreed within 4000", SIX_DECIMALS, apart(4_000, 10)),
]
IN_DEGREES_ONCE = [
    ("0.29 seconds off once agreed within 46", b"A,0-00-00\nB,45-00-00.39\n", apart(46, 10)),
    ("the same by signs", "A,0°00'00\"\nB,45°00'00.39\"\n".encode(), apart(46, 10)),
    ("and with its decimals, as once", b"A,0-00-00.00\nB,45-00-00.39\n", apart(46, 10)),
    ("whole seconds", b"A,0-00-00\nB,45-00-00\n", agrees(15, 160)),
]


def s1_of(b):
    """One set of A at 0 and B at so many 0.00001 gon."""
    return field_file({1: [both_faces("A", 0), both_faces("B", b)]})


def of_one_set(within, limit):
    """The line of a table of it that agrees: nothing is left of its directions."""
    return agrees(within, limit, greatest=0, sets=1)


# A station, a table of it with four decimals or fewer, and the line: an instrument's own results may
# be half a step and 5 units off, and the program's own tables are taken back.
ROOM = [
    ("55 of four decimals once were apart", 5_000_001, b"A,0.0000\nB,49.9999\n", of_one_set(55, 55)),
    ("60 are", 5_000_002, b"A,0.0000\nB,49.9999\n", apart(60, 55)),
    ("505 of three decimals once were apart", 5_000_001, b"A,0.000\nB,49.999\n", of_one_set(505, 505)),
    ("510 are", 5_000_002, b"A,0.000\nB,49.999\n", apart(510, 505)),
    ("its own table once was 1500 apart", 20_000_300, b"A,0.0\nB,200.0\n", of_one_set(1_500, 50_005)),
    ("its own table of zeros alone", 300, b"A,0.0\nB,0.0\n", of_one_set(1_500, 50_005)),
]

# Tables of P7 as programs really printed them (numpy 1.24, Octave 7.3, LibreOffice 7.4, mawk 1.3), of
# directions with eight decimals; how far each is apart from the exact ones, of which its sheet has the
# fractions; and the limit, where none is stated.
PRINTED = [
    (
        "numpy's savetxt, with a header",
        b"# target,direction\nTOWER,0.000000\nP3,64.521338\nMAST,139.404538\n"
        b"P8,212.757195\nCHURCH,278.860592\nP12,345.209189\n",
        1,
        10,
    ),
    (
        "Octave's printf, in columns, of angles just below a full circle",
        b"TOWER       400.0000\nP3           64.5213\nMAST        139.4045\n"
        b"P8          212.7572\nCHURCH      278.8606\nP12         345.2092\n",
        25,
        55,
    ),
    (
        "LibreOffice in German, converted with no option",
        b'Ziel,Richtung\nTOWER,0\nP3,"64,5213375"\nMAST,"139,40453814"\n'
        b'P8,"212,757195"\nCHURCH,"278,86059171"\nP12,"345,20918875"\n',
        1,
        10,
    ),
    (
        "LibreOffice in German, saved with semicolons as it shows four decimals",
        b"Ziel;Richtung (gon)\nTOWER;0,0000\nP3;64,5213\nMAST;139,4045\n"
        b"P8;212,7572\nCHURCH;278,8606\nP12;345,2092\n",
        25,
        55,
    ),
    (
        "LibreOffice in English, saved with tabs as it shows five decimals",
        b"Target\tDirection\nTOWER\t0.00000\nP3\t64.52134\nMAST\t139.40454\n"
        b"P8\t212.75720\nCHURCH\t278.86059\nP12\t345.20919\n",
        4,
        10,
    ),
    (
        "awk's print, which shows six digits: its table once agreed within 329",
        b"TOWER 0\nP3 64.5213\nMAST 139.405\nP8 212.757\nCHURCH 278.861\nP12 345.209\n",
        329,
        55,
    ),
]

# Each is a table with a fault, and the fault.
FAULTS = [
    ("no bytes", b"", "table: Missing 1\nthe table lacks A"),
    ("no B", b"A,0\n", "table: Missing 2\nthe table lacks B"),
    ("no A", b"B,50.00003\n", "table: Missing 1\nthe table lacks A"),
    ("one column", b"A\nB\n", "table row 1: Fields"),
    ("three columns", b"A,0,0\nB,50.00003\n", "table row 1: Fields"),
    ("a blank column between", b"A,,0\nB,50.00003\n", "table row 1: Fields"),
    ("a decimal comma", of_b(b"50,00003"), "table row 2: Fields"),
    ("decimal commas everywhere", b"A,0,0\nB,50,00003\n", "table row 1: Fields"),
    ("another separator", b"A,0\nB;50.00003\n", "table row 2: Fields"),
    ("as many blanks as may be", b" " * model.LONGEST_TABLE, "table row 1: Fields"),
    ("one more", b" " * (model.LONGEST_TABLE + 1), "table: TooLong"),
    ("too long without a fault", TABLE + b"\n" * model.LONGEST_TABLE, "table: TooLong"),
    ("no name", b"A,0\n,1\n", "table row 2: Name"),
    ("a name of 17 bytes", b"A,0\n" + b"B" * 17 + b",1\n", "table row 2: Name"),
    ("a name with a tab", b"A,0\nB\tB,1\n", "table row 2: Name"),
    *(
        (f"the direction {text!r}", of_b(text), "table row 2: Number")
        for text in [
            *[b"1e2", b"1e-", b"e-05", b"5.000003e+1.0", b"5e+03", b"1e-0005", b"0050", b".", b"-.", b"", b"-", b"--5", b"+-5", b"5 0"],
            *[b"5o", b"50.00003g", b"50.0.3", b"\xb2", b"0x5", b"inf", b"9" * 5_000],
            *[b"50.0000300001x", b"50." + b"0" * 5_000 + b"o"],
        ]
    ),
    ("401", of_b(b"401"), "table row 2: Range"),
    ("above a full circle", of_b(b"400.000000001"), "table row 2: Range"),
    ("above a full circle back", of_b(b"-400.1"), "table row 2: Range"),
    ("999.999999999", of_b(b"999.999999999"), "table row 2: Range"),
    ("another name", b"A,0\nC,1\n", "table row 2: Unknown"),
    ("a small letter", b"A,0\nb,1\n", "table row 2: Unknown"),
    ("a blank in the name", b"A,0\nB B,1\n", "table row 2: Unknown"),
    ("degrees with hyphens", of_b(b"45-00-00.0972"), "table row 2: Number"),
    ("degrees with signs", of_b("45°00'00.0972\"".encode()), "table row 2: Number"),
    ("zeros before a name", b"000A,0\nB,50.00003\n", "table row 1: Unknown"),
    ("zeros before the other name", b"A,0\n000B,50.00003\n", "table row 2: Unknown"),
    ("A twice", TABLE + b"A,0.000000\n", "table row 3: Twice"),
    ("A twice with blanks around it", TABLE + b" A ,0.000000\n", "table row 3: Twice"),
    ("titles in the second row", TABLE[:2] + b"0\nName,Hz\n", "table row 2: Number"),
    ("a target's row is none of titles", b"A,0 g\nB,50 g\n", "table row 1: Number"),
    ("titles and no row of B", b"Name,Hz\nA,0\n", "table: Missing 2\nthe table lacks B"),
    ("rows are counted, not lines", b"A,0\n\n\n\nB,x\n", "table row 2: Number"),
    ("a quote that is never closed", b'A,"0\nB,50.00003\n', "table row 1: Number"),
    ("the name before the number", b"A,0\n,5e\n", "table row 2: Name"),
    ("the number before the range", of_b(b"4010"), "table row 2: Number"),
    ("the range before the station's names", b"C,401\n", "table row 1: Range"),
    ("the first row before the second", b"A,401\nB\n", "table row 1: Range"),
    ("a row before what is missing", b"B,401\n", "table row 1: Range"),
]

IN_DEGREES_BY_1_2 = ["--degrees", "--columns=1,2"]

# Each is a table that is read by a pair of its columns, as options say or the one that fits; and what
# its note says: the two columns, the rows passed over before the targets, among and after them, and
# the units.
BY_COLUMNS = [
    ("two tabs", b"A\t\t0\nB\t\t50.00003\n", [], (1, 3, 0, 0, 0, 0)),
    ("titles after titles", b"Name,Hz\nName,gon\n" + TABLE, [], (1, 2, 2, 0, 0, 0)),
    ("gon behind one number", b"A,0\nB,50.00003gon\n", [], (1, 2, 0, 0, 0, 1)),
    ("a column of the unit", b"A;0;gon\nB;50,00003;gon\n", [], (1, 2, 0, 0, 0, 2)),
    ("a text before them", b"Sets of S1\nfrom 7 h\nA;0\nB;50.00003\n", [], (1, 2, 2, 0, 0, 0)),
    ("rows of separators", b"---;---\nA;0\n;\nB;50.00003\n===\n", [], (1, 2, 1, 1, 1, 0)),
    ("a row of another name above", b"T;15.5\nA;0\nB;50.00003\n", [], (1, 2, 1, 0, 0, 0)),
    ("a row of another name below", b"A;0\nB;50.00003\nT;15.5\n", [], (1, 2, 0, 0, 1, 0)),
    ("the station in each row", b"7;A;I;0\n7;B;I;50.00003\n", [], (2, 4, 0, 0, 0, 0)),
    ("the rows counted from 1", b"1 A 0\n2 B 50.00003\n", [], (2, 3, 0, 0, 0, 0)),
    ("numbers of points", b"101;A;0\n7;B;50.00003\n", ["--columns=2,3"], (2, 3, 0, 0, 0, 0)),
    ("an equals sign", b"A = 0\nB = 50.00003\n", [], (1, 3, 0, 0, 0, 0)),
    ("both of two columns", b"A,0,1\nB,50.00003,2\n", ["--columns=1,2"], (1, 2, 0, 0, 0, 0)),
    ("a first row of numbers", b"S;1;2\nA;0;1\nB;50.00003;2\n", ["--columns=1,2"], (1, 2, 1, 0, 0, 0)),
    ("names after directions", b"Hz,V,To\n0,1,A\n50.00003,2,B\n", ["--columns=3,1"], (3, 1, 1, 0, 0, 0)),
    ("three columns of numbers", b"A;0;0;0\nB;45;0;0,0972\n", ["--degrees"], (1, 2, 0, 0, 0, 0)),
    ("the same, stated", b"A;0;0;0\nB;45;0;0,0972\n", IN_DEGREES_BY_1_2, (1, 2, 0, 0, 0, 0)),
    ("three columns in one row", b"A,0.0\nB,45,0,0.0972\n", IN_DEGREES_BY_1_2, (1, 2, 0, 0, 0, 0)),
    ("whole degrees beside deviations", b"A,0,0.8\nB,45.000027,0.8\n", IN_DEGREES_BY_1_2, (1, 2, 0, 0, 0, 0)),
]

# Each is a table whose columns can't be told or are stated wrongly, and its fault.
NO_COLUMNS = [
    ("two columns fit", b"A,0,1\nB,50.00003,2\n", [], "table: Columns 2 3"),
    ("two columns of names", b"A,0,B\nB,50.00003,A\n", [], "table: Columns 1 3"),
    ("numbers of points before names", b"101;A;0\n7;B;50.00003\n", [], "table: Columns 1 3"),
    ("decimals in a column", b"A,0,000\nB,50,003\n", [], "table: Columns 2 3"),
    ("a number of four digits beside", b"A,0,1000\nB,50.00003,1000\n", [], "table row 1: Fields"),
    ("a hyphen beside", b"A,0,-\nB,50.00003,-\n", [], "table row 1: Fields"),
    ("a minus by itself", b"A - 0\nB - 50.00003\n", [], "table row 1: Fields"),
    ("the true minus by itself", "A \u2212 0\nB \u2212 50.00003\n".encode(), [], "table row 1: Fields"),
    ("another unit", b"A 0 deg\nB 50.00003 deg\n", [], "table row 1: Fields"),
    ("directions before names", b"0,A\n50.00003,B\n", [], "table row 2: Number"),
    ("a name in another column", b"A 0 gon\nB 50.00003 gon\nto A\n", [], "table row 1: Fields"),
    ("another name among them", b"A 0 gon\nC 1\nB 50.00003 gon\n", [], "table row 1: Fields"),
    ("a target twice", b"A 0 gon\nB 50.00003 gon\nA 0\n", [], "table row 1: Fields"),
    ("and by stated columns", b"A 0 gon\nB 50.00003 gon\nA 0\n", ["--columns=1,2"], "table row 3: Twice"),
    ("no such column", b"A,0\nB,50.00003\n", ["--columns=1,3"], "table row 1: Fields"),
    ("no names there", b"A,0\nB,50.00003\n", ["--columns=2,1"], "table: Missing 1\nthe table lacks A"),
    ("60 seconds in three columns", b"A,0,0,0\nB,44,59,60.0972\n", IN_DEGREES_BY_1_2, "table row 2: Number"),
    ("no seconds", b"A,0\nB,45,0\n", IN_DEGREES_BY_1_2, "table row 2: Number"),
    ("decimals of minutes", b"A,0,0\nB,45,0.00162\n", IN_DEGREES_BY_1_2, "table row 1: Number"),
    ("whole degrees with a point", b"A,0.0,0.0,0\nB,45.0,0.0,0.0972\n", IN_DEGREES_BY_1_2, "table row 1: Number"),
    ("minutes in columns", b"A,0,0,0\nB,45,0,0.0972\n", ["--dmmss", "--columns=1,2"], "table row 1: Number"),
    ("decimals in a stated column", b"A,0,00000\nB,50,00003\n", ["--columns=1,2"], "table row 1: Number"),
    ("the same in one row", b"A,0.0\nB,50,00003\n", ["--columns=1,2"], "table row 2: Number"),
    ("decimals with the unit", b"A,0\nB,50,00003 gon\n", ["--columns=1,2"], "table row 2: Number"),
]

# The example's table in UTF-16: its first row is one of titles, and a byte 0 stands before the name
# in the second, or alone between CR and LF.
IN_UTF_16 = [
    (f"{encoding}, {name}", text.encode(encoding), why)
    for encoding in ["utf-16", "utf-16-le", "utf-16-be"]
    for name, text, why in [
        ("line feeds", "A,0\nB,50.00003\n", "table row 2: Name"),
        ("titles", "Name,Hz\nA,0\nB,50.00003\n", "table row 2: Name"),
        ("semicolons", "A;0\nB;50,00003\n", "table row 2: Name"),
        ("tabs", "A\t0\nB\t50.00003\n", "table row 2: Name"),
        ("CR LF", "A,0\r\nB,50.00003\r\n", "table row 2: Fields"),
    ]
]

# Each is a table in degrees, and the line of its verdict within 0.000001 gon: 50.00003 gon are
# 45.000027 degrees, or 0.0972 seconds beside 45 degrees.
IN_DEGREES = [
    ("hyphens", b"A,0-00-00\nB,45-00-00.0972\n", agrees(0, 1)),
    ("a tenth of a second", b"A,0-00-00.0\nB,45-00-00.1\n", agrees(1, 1)),
    ("zeros and a sign", b"A,+000-00-00\nB,+045-00-00.0972000\n", agrees(0, 1)),
    ("the other way round", b"A,-0-00-00\nB,-314-59-59.9028\n", agrees(0, 1)),
    ("a full circle", b"A,360-00-00\nB,-315.0000\n", apart(15, 1)),
    ("signs", "A,0°00'00\"\nB,45°00'00.0972\"\n".encode(), agrees(0, 1)),
    ("signs in quotes", 'A,"0°00\'00"""\nB,"45°00\'00,0972"""\n'.encode(), agrees(0, 1)),
    ("signs and semicolons", "A;0°00'00\"\nB;45°00'00,0972\"\n".encode(), agrees(0, 1)),
    ("decimals", b"A 0\nB 45.000027\n", agrees(0, 1)),
    ("hyphens beside decimals", b"A,0-00-00\r\nB,45.000027\r\n", agrees(0, 1)),
    ("decimals of seconds that are left out", b"A,0-00-00\nB,45-00-00.09720000001\n", agrees(1, 1)),
    ("exponents of degrees", b"A,1e-05\nB,4.5000037E+01\n", agrees(0, 1)),
    ("degrees that are above 360", of_b(b"360-00-00.0001"), refused("table row 2: Range")),
    *(
        (f"B as {text!r}", of_b(text.encode()), refused("table row 2: Number"))
        for text in [
            *["45-0-0", "45-00-0", "45-0-00", "45-00", "45-", "-45-", "45--00-00", "45-00-00-00"],
            *["45-60-00", "45-00-60", "45 0 0", "45:0:0", "45:00", "45:00-00", "4500.00.00"],
            *["0045-00-00", "-00-00", "45-00.5-00", "45-00-01e-05", "45-00-00N"],
            *["45°", "45°00'", "45°00'00", "45°00-00", "45-00'00\"", "45º00'00\"", "45 °00'00\""],
            *["45°00\u203300\u2032", "45°00\u201800\u201c", "45°00'00'", "45d00m00s"],
        ]
    ),
    *(
        (f"B as {text!r}", of_b(text.encode()), apart(15, 1))
        for text in [
            *["45 00 00", "45:00:00", "45° 00' 00\"", "45°00\u203200\u2033", "45°00\u201900\u201d"],
            *["45°00'00''", "45°00'00\u2033", "45°\t00\u2032  00''"],
        ]
    ),
    *(
        (f"the sign as {sign!r}", of_b(b"45%s00'00\"" % sign), refused("table row 2: Number"))
        for sign in [b"\xb0", b"\xf8", b"\xc2", b"\xc2\xba", b"\xcb\x9a"]
    ),
]

# Each is a field file, a station of it, a table, and the line of the verdict.
FILES = [
    ("GSI-16", widened(STATION), "S1", TABLE, AGREES),
    ("another unit", edited(STATION, (b"21.102", b"21.104")), "S1", b"", refused("block 3: Hz Unit")),
    ("another station", STATION, "S2", b"", refused("no station", "the file has S1")),
    ("two parts", TWO_PARTS, "S1", TABLE, refused("adjust: NotConnected", PARTS)),
    ("two parts and a fault", TWO_PARTS, "S1", b"A,0\n", refused("table: Missing 2\nthe table lacks B")),
    ("half a circle", three_sets(20_000_000), "S1", TABLE, refused("adjust: Residual 5", ABOVE)),
    ("above 2,000 half units", three_sets(3_001), "S1", TABLE, refused("adjust: Residual 5", ABOVE)),
    ("the largest residuals", three_sets(3_000), "S1", of_b(b"0.010001"), agrees(1, 10, greatest=10_000, sets=3)),
]

# How far a target is turned in each of three sets: in the last by so much that just the largest
# residual is left.
LAST_OFF = [(1, 0), (2, 0), (3, 3_000)]

# What may not follow `--within`, and what is said of it.
MISTAKES = ["1000001", "4294967297", "2.5", "0.0005mgon", "1000.001mgon"]
TABLE_LIMITS = (
    "state mgon, as 0.05mgon: from 0mgon to 1000mgon, by 0.001;\nor units of 0.001 mgon: from 0 to 1000000\n"
)


def told(counts):
    """The note of a table that was read by a pair of its columns."""
    return (
        b"note: table: targets in column %d, directions in column %d; rows passed over: "
        b"%d before, %d among, %d after them; units passed over: %d\n" % counts
    )


def judged(name, file, table, line, *options, station="S1"):
    """A run of the comparison, which prints an agreement or refuses."""
    args = ["compare", "{file}", station, "{sheet}", *options]
    does_agree = line.startswith(b"agrees")
    stdout, stderr = (line, b"") if does_agree else (b"", line)
    return Run(name, args, b"", file, table, stdout, stderr, 0 if does_agree else 1)


class CompareTest(ProgramTest):
    def test_a_table_agrees_or_its_first_fault_is_named(self):
        for name, table, within, line in TABLES:
            options = [] if within is None else ["--within", within]
            self.check([judged(name, STATION, table, line, *options)])
        self.check([judged(name, STATION, table, line) for name, table, line in [*USUAL, *OF_S1_ONCE]])
        self.check([judged(name, P7, table, line, station="P7") for name, table, line in OF_P7_ONCE])
        self.check([judged(name, s1_of(b), table, line) for name, b, table, line in ROOM])
        faults = [*FAULTS, *IN_UTF_16]
        self.check([judged(name, STATION, table, refused(why)) for name, table, why in faults])

    def test_a_table_is_read_by_the_columns_that_fit_or_are_stated(self):
        for name, table, options, counts in BY_COLUMNS:
            run = judged(name, STATION, table, AGREES_WITHIN_0, "--within=0", *options)
            self.check([replace(run, stderr=told(counts))])
        for name, table, options, why in NO_COLUMNS:
            self.check([judged(name, STATION, table, refused(why), *options)])

    def test_a_table_in_degrees_agrees_or_its_first_fault_is_named(self):
        for name, table, line in IN_DEGREES:
            self.check([judged(name, STATION, table, line, "--degrees", "--within=1")])
        for name, table, line in IN_DEGREES_ONCE:
            self.check([judged(name, STATION, table, line, "--degrees")])

    def test_tables_are_read_as_programs_print_them(self):
        for name, table, within, usual in PRINTED:
            for limit, options in [
                (usual, []),
                (within, ["--within", str(within)]),
                (within - 1, ["--within", str(within - 1)]),
            ]:
                line = apart(within, limit) if limit < within else agrees(within, limit, 6, "P7")
                self.check([judged(name, P7, table, line, *options, station="P7")])

    def test_the_field_file_is_judged_before_the_table_and_both_before_they_are_compared(self):
        for name, file, station, table, line in FILES:
            self.check([judged(name, file, table, line, station=station)])

    def test_a_mistake_in_the_limit_is_explained(self):
        for value in MISTAKES:
            with self.subTest(value):
                message = f"error: invalid value '{value}' for '--within <LIMIT>': {TABLE_LIMITS}".encode()
                args = ["compare", EXAMPLE, "S1", EXAMPLE_TABLE, "--within", value]
                status, stdout, stderr = answer_of(args)
                self.assertEqual((2, b""), (status, stdout))
                self.assertTrue(stderr.startswith(message), stderr)

    def test_a_text_that_states_no_columns_is_explained(self):
        """By each command that reads a table, whatever else is stated."""
        why = "two columns by their numbers from 1 or by their titles, with a comma between, as 2,6 or Target,Hz"
        files = [EXAMPLE, "S1", EXAMPLE_TABLE]
        no_numbers = ["1", "1,", ",1", "0,1", "1,2,3", "1;2", "1000000,1", "2,2", "02,2"]
        for text in ["", "xx", ",", "x,", ",x", "2,x", "x,6", "x,y,z", "x,6,", *no_numbers]:
            self.assertIsNone(model.columns_in(text.encode()))
            said = f"error: invalid value '{text}' for '--columns <TARGET,DIRECTION>': {why}\n".encode()
            for args in [
                ["compare", *files],
                ["compare", "--within=10", "--dmmss", *files],
                ["differences", *files],
                ["report", EXAMPLE, "S1"],
                ["report", "--csv", f"--table={EXAMPLE_TABLE}", EXAMPLE, "S1"],
            ]:
                with self.subTest(args, text=text):
                    status, stdout, stderr = answer_of([args[0], f"--columns={text}", *args[1:]])
                    self.assertEqual((2, b""), (status, stdout))
                    self.assertTrue(stderr.startswith(said), stderr)
                    usage = stderr.removeprefix(said).splitlines()[1]
                    self.assertTrue(usage.startswith(f"Usage: {PROGRAM.name} {args[0]} ".encode()), usage)

    def test_both_files_may_be_pipes(self):
        files = f"<(cat '{EXAMPLE}') S1 <(cat '{EXAMPLE_TABLE}')"
        self.assertEqual((0, AGREES, b""), answer_in_shell(f'"$@" {files}', "compare"))
        for gsi, table, stdin in [
            ("/dev/stdin", EXAMPLE_TABLE, STATION),
            (EXAMPLE, "/dev/stdin", TABLE),
        ]:
            self.assertEqual((0, AGREES, b""), answer_of(["compare", gsi, "S1", table], stdin))

    def test_a_table_that_never_ends_is_refused(self):
        for rows in ["yes A,0", "yes ''", "yes '\"' | tr -d '\\n'"]:
            answer = answer_in_shell(f'{rows} | "$@"', "compare", EXAMPLE, "S1", "/dev/stdin")
            self.assertEqual((1, b"", refused("table: TooLong")), answer)

    def test_what_directions_printed_is_taken_back_where_no_limit_is_stated(self):
        field, table = self.folder / "field.gsi", self.folder / "table.csv"
        for place in range(STATIONS):
            file = station_to_adjust(Random(f"{SEED} own {place}"))
            field.write_bytes(file)
            name = model.survey_of(file, model.Limits())[0].name
            for decimals in range(1, 9):
                args = ["directions", field, name, "--decimals", str(decimals)]
                status, printed, said = answer_of(args)
                table.write_bytes(printed)
                if said.startswith(b"refused: adjust: Residual"):
                    continue
                again = answer_of(["compare", field, name, table])
                self.assertEqual((0, 0), (status, again[0]), (place, decimals, printed))

    def test_the_longest_line(self):
        """Of a name of 16 bytes, 100 targets, the largest limit and the largest residual: three sets
        of two targets, and one of the first and the others, of which nothing is left."""
        names = [f"N{place:02}" for place in range(100)]
        sets = {number: [both_faces(names[0], 0), both_faces(names[1], hz)] for number, hz in LAST_OFF}
        others = enumerate([names[0], *names[2:]])
        sets[4] = [both_faces(name, 100_000 * place) for place, name in others]
        name = "ABCDEFGHIJKLMNOP"
        file = edited(widened(field_file(sets)), (b"00000000000000S1", name.encode()))
        gon = [0, 0.01, *range(1, 99)]
        table = "".join(f"{target},{one}\n" for target, one in zip(names, gon))
        off = table.replace("N50,49\n", "N50,51\n").encode()
        line = agrees(1_000_000, 1_000_000, 100, name, greatest=10_000, sets=4)
        self.assertEqual(119, len(line))
        self.check([judged("the longest", file, off, line, "--within=1000000", station=name)])
        path = self.folder / "table.csv"
        path.write_bytes(off)
        args = ["report", f"--table={path}", "--within=1000mgon", self.folder / "field.gsi", name]
        status, printed, said = answer_of(args)
        self.assertEqual((0, b""), (status, said))
        found = b"Comparison            agrees: 100 targets, within 1000.000 mgon"
        self.assertIn(b"\n" + found + b"\n", printed)

    def test_the_largest_station(self):
        """Its directions in reverse, each but the last off by 40 units upward."""
        _, sets, *_ = largest()
        rows = [b"%d,%d.%02d%04d\n" % (t, *divmod(t - 1, 100), 40) for t in range(1, 100)]
        table = b"".join([b"100,0.99\n", *reversed(rows)])
        file, options = field_file(sets), ["--within", "20"]
        self.check([judged("the largest", file, table, agrees(20, 20, 100, greatest=0, sets=len(sets)), *options)])


class ComparedTest(AgainstModel):
    def test_generated_stations_beside_the_model(self):
        for place in range(STATIONS):
            random = Random(f"{SEED} compare {place}")
            file = station_to_adjust(random)
            station = model.survey_of(file, model.Limits())[0]
            self.compare(
                Case(f"{place}", "compare", file, table, within=within, degrees=degrees)
                for within in [None, random.choice([0, 1, 5, 6, 10, 50, 51, 1_000_000])]
                for degrees in [False, True]
                for table in [table_of_station(random, station, degrees)]
            )

    def test_differences_on_all_sides_of_the_circle(self):
        """Three targets are stated anywhere on the circle, a whole station at 0."""
        file = field_file({1: [both_faces(name, 0) for name in "ABC"]})
        gon = [0, 1, 100, 133, 134, 199, 200, 201, 266, 267, 300, 399]
        tables = [b"A,0\nB,%d\nC,%d\n" % (b, c) for b in gon[1::2] for c in gon]
        cases = [Case(repr(table), "compare", file, table, within=0) for table in tables]
        self.compare(cases)


if __name__ == "__main__":
    unittest.main()
