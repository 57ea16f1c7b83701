"""Field files, sheets and tables of directions worked out by hand."""

from program import EXAMPLE, EXAMPLE_SHEET, EXAMPLE_TABLE

STATION = EXAMPLE.read_bytes()

SHEET = EXAMPLE_SHEET.read_bytes()

TABLE = EXAMPLE_TABLE.read_bytes()

LIST = b"""\
station S1: 2 sets, 2 targets, 4 directions
set 1, target A: p 6, 2c 6, 2i -2
set 1, target B: p 10000010, 2c 10, 2i 0
set 2, target A: p 20000004, 2c 4, 2i 0
set 2, target B: p 30000012, 2c 4, 2i 0
"""

LIST_ROWS = b"""\
station,set,target,direction,2c,2i
S1,1,A,0.000030,0.06,-0.02
S1,1,B,50.000050,0.10,0.00
S1,2,A,100.000020,0.04,0.00
S1,2,B,150.000060,0.04,0.00
"""

# The readings of the example without its codes; with codes as `mark` puts them in; and what it tells.
READINGS = [line for line in STATION.splitlines(keepends=True) if line.startswith(b"11")]

JOB = b"".join(READINGS)

MARKED = b"".join([
    b"41....+00000010 42....+000000S1\r\n41....+00000020 42....+00000001\r\n",
    *READINGS[:4],
    b"41....+00000020 42....+00000002\r\n",
    *READINGS[4:],
])

NOTES = (
    b"note: station S1: 2 sets, 2 targets, from A to B; 0 readings before them and 0 after stay outside\n"
    b"note: compare this with the field book\n"
)

ACCEPTED = b"accepted S1: 2 sets, 2 targets, 4 directions, greatest residual 4/4\n"

AGREES = (
    b"agrees S1: 2 sets, 2 targets, within 0.000 mgon, limit 0.010 mgon, greatest residual 0.005 mgon\n"
)

DIFFERENCES = b"""\
target,stated,least squares,difference,from the median
A,0.000000,0.000000,0.000,0.000
B,50.000030,50.000030,0.000,0.000
"""

RESIDUALS = b"""\
set,target,direction,adjusted,residual
1,A,0.000030,0.000025,-0.005
1,B,50.000050,50.000055,0.005
2,A,100.000020,100.000025,0.005
2,B,150.000060,150.000055,-0.005
"""

# The report of the example is made of the name of its file.
REPORT = b"""\
station_check 1.0.0: report of the sets of a station

Field file            %s
Station               S1
Sets                  2
Targets               2
Two-face directions   4
Missing directions    0
Limit of 2c           20.00 mgon
Limit of 2i           20.00 mgon
Limit of residuals    10.000 mgon

Readings in gon, mean of both faces counted from the first row of the set,
2c and 2i in mgon

  Set  Target               Face I    Face II         Mean        2c        2i

    1  A                   0.00000  200.00006     0.000000      0.06     -0.02
    1  B                  50.00000  250.00010    50.000020      0.10      0.00

    2  A                 100.00000  300.00004     0.000000      0.04      0.00
    2  B                 150.00004  350.00008    50.000040      0.04      0.00

  Mean                                                          0.06      0.00
  Half of the mean: collimation and index error                 0.03      0.00
  Spread: the greatest less the least                           0.06      0.02

Zenith angles in gon, mean of both faces

  Set  Target               Face I    Face II         Mean

    1  A                 100.00000  299.99998   100.000010
    1  B                 100.00000  300.00000   100.000000

    2  A                 100.00000  300.00000   100.000000
    2  B                 100.00000  300.00000   100.000000

Mean of the sets of each target in gon, standard deviation of the mean in mgon

  Target            Sets         Mean  Standard deviation

  A                    2   100.000005               0.005
  B                    2   100.000000               0.000

Adjusted directions in gon, by least squares, counted from the first target

  Target              Direction

  A                    0.000000
  B                   50.000030

Residuals in mgon: adjusted direction less two-face direction

  Target      Set        1       2

  A                 -0.005   0.005
  B                  0.005  -0.005

Greatest residual     -0.005 mgon, set 1, target A
Degrees of freedom    1
Sum of squares [vv]   0.000100 mgon^2
Standard deviation    0.010 mgon, of one two-face direction
Standard deviation    0.007 mgon, of each adjusted direction
"""

REPORT_ROWS = b"""\
station,set,target,face one,face two,direction,2c,2i,adjusted,residual,zenith one,zenith two,zenith mean
S1,1,A,0.000000,200.000060,0.000030,0.06,-0.02,0.000025,-0.005,100.000000,299.999980,100.000010
S1,1,B,50.000000,250.000100,50.000050,0.10,0.00,50.000055,0.005,100.000000,300.000000,100.000000
S1,2,A,100.000000,300.000040,100.000020,0.04,0.00,100.000025,0.005,100.000000,300.000000,100.000000
S1,2,B,150.000040,350.000080,150.000060,0.04,0.00,150.000055,-0.005,100.000000,300.000000,100.000000
"""

# What stands in the report, before the residuals, of a table whose path is put in. Each of its two
# directions is 15 units off after one rotation.
SECTION = b"""\
Stated directions in gon, differences in mgon: stated less adjusted,
after the best rotation

  Target                      Stated    Difference    From the median

  A                       100.000100         0.015              0.030
  B                       150.000100        -0.015              0.000

Table                 %s
Limit of differences  0.055 mgon
Comparison            agrees: 2 targets, within 0.015 mgon

"""

# The table.
TABLE_15 = b"B,150.0001\nA,100.0001\n"

# The zenith angles of a reading in face I and in face II where nothing else is said.
ZENITHS = (10_000_000, 30_000_000)


def refused(reason: str, hint: str = "") -> bytes:
    """The line of a refusal, and what is told after it."""
    return f"refused: {reason}\n".encode() + (f"{hint}\n".encode() if hint else b"")


# What is told of a station that is not held together.
PARTS = (
    "the sets fall into parts without a common target: read a target of one part in a set of another"
)


def edited(text: bytes, *edits: tuple[bytes, bytes]) -> bytes:
    """A text with some parts in the place of others, each of which must stand in it."""
    for old, new in edits:
        assert old in text, old
        text = text.replace(old, new)
    return text


def field_file(sets: dict[int, list[tuple]]) -> bytes:
    """The field file of the station S1 with these sets: in each, face I and then face II backwards.

    `sets` has for each number of a set its readings: the name of a target, its directions in face I
    and in face II, and perhaps its zenith angles."""
    lines: list[str] = []

    def number() -> int:
        return (len(lines) + 1) % 10_000

    lines.append(f"41{number():04}+00000010 42....+000000S1")
    for of_set, readings in sets.items():
        lines.append(f"41{number():04}+00000020 42....+{of_set:08}")
        for face, ordered in enumerate((readings, list(reversed(readings)))):
            for name, *angles in ordered:
                directions, zeniths = angles[:2], angles[2:] or ZENITHS
                words = f"21.102+{directions[face]:08} 22.102+{zeniths[face]:08}"
                lines.append(f"11{number():04}+{name:0>8} {words}")
    lines.append(f"41{number():04}+00000030")
    return "".join(f"{line}\r\n" for line in lines).encode()


def widened(narrow: bytes) -> bytes:
    """The same lines in GSI-16, each ended by CR; the last has no end."""

    def line_of(words: list[bytes]) -> bytes:
        return b"*" + b" ".join(word[:7] + b"0" * 8 + word[7:] for word in words)

    return b"\r".join(line_of(line.split(b" ")) for line in narrow.splitlines())
