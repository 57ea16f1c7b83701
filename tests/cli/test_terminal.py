"""Standard input at a terminal: a note on standard error says that it is read, and an end that is
typed is the end, whatever is typed after it."""

import os
import pty
import subprocess
import termios
import threading
import unittest

import model
from against_model import AgainstModel, Case
from program import EXAMPLE, EXAMPLE_SHEET, PROGRAM, TIME
from worked import ACCEPTED, LIST, SHEET, STATION

NOTE = b"reading from the terminal; Ctrl-D ends the input, and 'station_check --help' explains\n"

# An empty line of the terminal, which the reader takes for the end of the input.
END_OF_INPUT = b"\x04"

# So many that a program which asks again soon has an end, and does not wait.
ENDS = END_OF_INPUT * 30

# A field file and a sheet as they are typed: each line ends with a line feed.
FIELD = STATION.replace(b"\r\n", b"\n")
BLANKS = b" " * 1_000 + b"\n"
LINES = FIELD.splitlines(keepends=True)

# Field files of one byte to several buffers of the program.
FIELDS = [
    b"",
    b"4",
    b"\n",
    LINES[0],
    FIELD,
    FIELD[:-1],
    FIELD[:-20],
    FIELD + BLANKS * 4,
    BLANKS * 3 + FIELD,
    FIELD * 8,
    BLANKS * 12 + FIELD + BLANKS,
    BLANKS * 40 + FIELD[:100],
]

# What follows the end: of each some line that changes the answer, were it read.
MORE_FIELD = [b"51\n", b"\x7f\n", b"410013+00000020 42....+00000003\n"]

ROW = SHEET.splitlines(keepends=True)[-1]

# Sheets below and above the pieces in which the program reads them.
SHEETS = [
    b"",
    b"s",
    b"\n",
    SHEET,
    SHEET[:-1],
    SHEET[: -len(ROW)],
    SHEET[:-10],
    b"\n" * 4_095 + SHEET,
    b"\n" * 10_000 + SHEET,
    b"\n" * 10_000 + SHEET[: -len(ROW)],
    b"sheet,1,S1,4,\ntarget,,A,0,\n" + b"target,B\n" * 1_000,
    SHEET + ROW * 500,
]

MORE_SHEET = [ROW, b"sheet,1,S1,4,\n", b"A\n"]


def types_in(leader, text):
    """Types a text at a terminal; a reader that has left takes no more."""
    try:
        while text:
            text = text[os.write(leader, text) :]
    except OSError:
        pass


def ended(text):
    """A text and the end of the input. In the middle of a line the first Ctrl-D only hands on what
    stands there."""
    hands_on = b"" if text.endswith(b"\n") or not text else END_OF_INPUT
    return text + hands_on + END_OF_INPUT


class TerminalTest(AgainstModel):
    def at_terminal(self, args, typed):
        """The answer of a run whose standard input is a terminal at which this is typed."""
        leader, follower = pty.openpty()
        try:
            quiet = termios.tcgetattr(follower)
            quiet[3] &= ~termios.ECHO
            termios.tcsetattr(follower, termios.TCSANOW, quiet)
            streams = {"stdin": follower, "stdout": subprocess.PIPE, "stderr": subprocess.PIPE}
            with subprocess.Popen([PROGRAM, *args], **streams) as run:
                hand = threading.Thread(target=types_in, args=(leader, typed), daemon=True)
                hand.start()
                try:
                    stdout, stderr = run.communicate(timeout=TIME)
                finally:
                    run.kill()
        finally:
            os.close(follower)
            os.close(leader)
        hand.join(TIME)
        return run.returncode, stdout, stderr

    def test_a_note_says_that_the_terminal_is_read(self):
        words = b"1 1 41 0001 +00000010\n1 2 42 .... +000000S1\n"
        first_line = ended(LINES[0]) + ENDS
        self.assertEqual((0, words, NOTE), self.at_terminal([], first_line))
        self.assertEqual((0, words, NOTE), self.at_terminal(["words", "/dev/stdin"], first_line))
        for args, text, stdout in [
            (["list", "/dev/stdin"], FIELD, LIST),
            (["means", "/dev/stdin", "S1"], FIELD, SHEET),
            (["check", "/dev/stdin", EXAMPLE_SHEET], FIELD, ACCEPTED),
            (["check", EXAMPLE, "/dev/stdin"], SHEET, ACCEPTED),
        ]:
            with self.subTest(args):
                self.assertEqual((0, stdout, NOTE), self.at_terminal(args, ended(text) + ENDS))

    def test_a_terminal_that_is_not_read_is_not_noted(self):
        self.assertEqual((0, LIST, b""), self.at_terminal(["list", EXAMPLE], ended(b"")))
        check = self.at_terminal(["check", EXAMPLE, EXAMPLE_SHEET], ended(b""))
        self.assertEqual((0, ACCEPTED, b""), check)

    def check_typed(self, case, args, text, more):
        """A text that ends at a terminal is all that is read, though more is typed."""
        status, stdout, stderr = case.expected()
        for typed in [ended(text) + more + ENDS, ended(text) + ended(more) + more + ENDS]:
            with self.subTest(case.command, text=text[-40:], length=len(text), more=more):
                answer = self.at_terminal(args, typed)
                self.assertEqual((status, stdout, NOTE + stderr), answer)

    def test_what_is_typed_after_the_end_of_a_field_file_is_not_read(self):
        for command in ["words", "list", "means", "check"]:
            args = Case("", command, b"", b"").args("/dev/stdin", EXAMPLE_SHEET)
            for field in FIELDS:
                for more in MORE_FIELD:
                    self.check_typed(Case("", command, field, SHEET), args, field, more)

    def test_what_is_typed_after_the_end_of_a_sheet_is_not_read(self):
        args = Case("", "check", b"", b"").args(EXAMPLE, "/dev/stdin")
        for sheet in SHEETS:
            for more in MORE_SHEET:
                self.check_typed(Case("", "check", STATION, sheet), args, sheet, more)

    def test_a_line_after_the_end_would_change_the_answer(self):
        """So the tests above would see it, were it read."""
        for more in MORE_FIELD:
            self.assertNotEqual(model.listed(FIELD), model.listed(FIELD + more))
        for more in MORE_SHEET:
            self.assertNotEqual(model.check(STATION, SHEET), model.check(STATION, SHEET + more))


if __name__ == "__main__":
    unittest.main()
