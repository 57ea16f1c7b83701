"""The words of a field file, on standard input and of a path."""

import model
from processes import in_room
from program import EXAMPLE, ProgramTest, Run, answer_in_shell, answer_of
from worked import refused, widened

LINES = (
    b"410001+00000010 42....+000000S1\r\n"
    b"410002+00000020 42....+00000001\r\n"
    b"110003+0000000A 21.102+00000000 22.102+10000000\r\n"
)

FIRST_BLOCK = b"1 1 41 0001 +00000010\n1 2 42 .... +000000S1\n"

WORDS = FIRST_BLOCK + (
    b"2 1 41 0002 +00000020\n"
    b"2 2 42 .... +00000001\n"
    b"3 1 11 0003 +0000000A\n"
    b"3 2 21 .102 +00000000\n"
    b"3 3 22 .102 +10000000\n"
)

# The first three lines, of which the second begins with another word.
FIRST_WORD = LINES.replace(b"410002+00000020 42....+00000001", b"510002+00000000")

# The lines of the example up to the fifth, and what is printed of the fourth and the fifth.
FIVE_LINES = LINES + (
    b"110004+0000000B 21.102+05000000 22.102+10000000\r\n"
    b"110005+0000000B 21.102+25000010 22.102+30000000\r\n"
)

TWO_MORE = (
    b"4 1 11 0004 +0000000B\n"
    b"4 2 21 .102 +05000000\n"
    b"4 3 22 .102 +10000000\n"
    b"5 1 11 0005 +0000000B\n"
    b"5 2 21 .102 +25000010\n"
    b"5 3 22 .102 +30000000\n"
)


RUNS = [
    Run("three lines on standard input", stdin=LINES, stdout=WORDS),
    Run("three lines of a path", ["words", "{file}"], file=LINES, stdout=WORDS),
    Run("no bytes"),
    Run("blank lines are not numbered", stdin=b"\r\n   \n" + LINES, stdout=WORDS),
    Run("a line of blanks between blocks", stdin=LINES.replace(b"\r\n", b"\r\n  \r\n", 1), stdout=WORDS),
    Run("a blank after the last word", stdin=LINES.replace(b"\r\n", b"  \r\n"), stdout=WORDS),
    Run("lines ended by CR", stdin=LINES.replace(b"\r\n", b"\r"), stdout=WORDS),
    Run("lines ended by LF", stdin=LINES.replace(b"\r\n", b"\n"), stdout=WORDS),
    Run("the last line without an end", stdin=LINES.rstrip(), stdout=WORDS),
    Run(
        "both widths in one file",
        stdin=LINES.split(b"\r\n")[0] + b"\n*410002+0000000000000020 42....+0000000000000001\n",
        stdout=FIRST_BLOCK + b"2 1 41 0002 +0000000000000020\n2 2 42 .... +0000000000000001\n",
    ),
    Run(
        "an index with a leading zero is a number",
        stdin=b"110001+0000000A 05....-00000001",
        stdout=b"1 1 11 0001 +0000000A\n1 2 5 .... -00000001\n",
    ),
    Run(
        "the text before a fault is written",
        stdin=FIRST_WORD,
        stdout=FIRST_BLOCK,
        stderr=refused("block 2: FirstWord"),
        status=1,
    ),
    Run(
        "blank lines before a fault are not numbered",
        stdin=b"\n" + FIRST_WORD,
        stdout=FIRST_BLOCK,
        stderr=refused("block 2: FirstWord"),
        status=1,
    ),
    Run("a tab", stdin=b"110001+0000000A\t21.102+00000000", stderr=refused("block 1: Byte 16"), status=1),
    Run("a foreign first word", stdin=b"510001+00000000", stderr=refused("block 1: FirstWord"), status=1),
    Run(
        "a cut word",
        stdin=FIVE_LINES + b"110006+0000000A 21.102+20000006 22.102+2999",
        stdout=WORDS + TWO_MORE,
        stderr=refused("block 6: Word 3"),
        status=1,
    ),
    Run("1,024 blanks", stdin=b" " * 1024 + b"\n"),
    Run("1,025 blanks", stdin=b" " * 1025, stderr=refused("block 1: LineTooLong"), status=1),
    Run("as many line feeds as a file may have", stdin=b"\n" * 16_777_216),
    Run("one line feed more", stdin=b"\n" * 16_777_217, stderr=refused("block 1: FileTooLong"), status=1),
]


class WordsTest(ProgramTest):
    def test_words_are_printed_up_to_the_first_fault(self):
        self.check(RUNS)

    def test_the_example_has_twelve_blocks_and_31_words(self):
        status, stdout, stderr = answer_of(["words", EXAMPLE])
        self.assertEqual((0, b""), (status, stderr))
        self.assertEqual(31, stdout.count(b"\n"))
        self.assertEqual(b"12 1 41 0012 +00000030\n", stdout.splitlines(keepends=True)[-1])

    def test_a_wide_file_has_the_same_words_with_wide_contents(self):
        expected = model.words(EXAMPLE.read_bytes())[1].replace(b" +", b" +" + b"0" * 8)
        self.assertEqual((0, expected, b""), answer_of([], widened(EXAMPLE.read_bytes())))

    def test_a_file_that_never_ends_is_refused(self):
        answer = answer_in_shell("yes '110001+0000000A' | \"$@\" > /dev/null")
        self.assertEqual((1, b"", refused("block 1048577: FileTooLong")), answer)

    def test_memory_does_not_grow_with_the_file(self):
        room = 64 * 1024 * 1024
        lines = LINES * (16_000_000 // len(LINES))
        status, stdout, stderr = answer_of([], lines, preexec_fn=in_room(room))
        self.assertEqual((0, b""), (status, stderr))
        self.assertEqual(len(lines) // len(LINES) * 7, stdout.count(b"\n"))
