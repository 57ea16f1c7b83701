"""`change`: its copies by hand and beside the model, what is told, what is refused, new files."""

import random
import unittest

import model
from program import EXAMPLE, ROOT, SWEEP, ProgramTest, Run, answer_of, side_by_side

# Files of each width, one with lines of blanks and ends of lines of each kind.
JOB = ROOT / "examples" / "job.gsi"

GSI_8 = b"110001+000000P1 21.102+00000000\r\n110002+000000P2 21.102+10000000\r\n110003+000000P3\r\n"
GSI_16 = b"*110001+00000000000000P1 21.102+0000000000000000\n\n*110002+00000000000000P2\r410003+00000010"

# How many copies are made.
COPIES = 20_000 if SWEEP else 400

NOTHING_READ = b"refused: field file: Read\n"


def out(line):
    return f"note: line {line} left out\n".encode()


def named(line, name):
    return f"note: line {line} has the name {name}\n".encode()


def refused(line, fault):
    return f"refused: block {line}: change: {fault}\n".encode()


def mistake(option, text, why):
    said = f"error: invalid value '{text}' for '--{option}': {why}\n\n"
    return said.encode()


LEFT_OUT = "state the number of a line, from 1"
RENAMED = "state the number of a line, from 1, '=', and a name of 1 to 16 characters, from the blank to '~'"


class ChangeTest(ProgramTest):
    def test_copies_are_those_by_hand(self):
        first, second, third = GSI_8.splitlines(keepends=True)
        tower = GSI_8.replace(b"000000P1", b"000TOWER")
        equals = GSI_8.replace(b"000000P2", b"0000A =B")
        before_code = GSI_16[: GSI_16.index(b"41")]
        sixteen = GSI_16.replace(b"00000000000000P1", b"SIXTEEN LETTERS.")
        unread = b"Station\tP7\n\xff\xfe\n" + GSI_8
        for name, changes, file, copy, told in [
            ("no change", [], GSI_8, GSI_8, b""),
            ("a line out", ["--leave-out", "2"], GSI_8, first + third, out(2)),
            ("the last line out", ["--leave-out=3"], GSI_8, first + second, out(3)),
            ("a name", ["--rename", "1=TOWER"], GSI_8, tower, named(1, "TOWER")),
            ("a name with '=' and a blank", ["--rename", "2=A =B"], GSI_8, equals, named(2, "A =B")),
            (
                "in any order",
                ["--leave-out=3", "--rename=2=P7", "{file}", "--leave-out=1"],
                *[GSI_8, second.replace(b"P2", b"P7"), out(1) + named(2, "P7") + out(3)],
            ),
            (
                "lines of blanks have no number",
                ["--rename=2=P9", "--leave-out=3"],
                *[GSI_16, before_code.replace(b"P2", b"P9"), named(2, "P9") + out(3)],
            ),
            ("16 characters", ["--rename=1=SIXTEEN LETTERS."], GSI_16, sixteen, named(1, "SIXTEEN LETTERS.")),
            ("lines that no other command reads", ["--leave-out=1", "--leave-out=2"], unread, GSI_8, out(1) + out(2)),
            ("an empty file", [], b"", b"", b""),
        ]:
            words = changes if "{file}" in changes else [*changes, "{file}"]
            self.check([Run(name, ["change", *words], file=file, stdout=copy, stderr=told)])

    def test_the_first_change_that_cannot_be_made_is_refused(self):
        """In the order of the lines; and nothing is printed."""
        for changes, line, fault in [
            (["--leave-out=4"], 4, "NoSuchLine"),
            (["--leave-out=4294967295"], 4294967295, "NoSuchLine"),
            (["--leave-out=0"], 0, "LineOrder"),
            (["--rename=0=P7"], 0, "LineOrder"),
            (["--leave-out=2", "--leave-out=2"], 2, "LineOrder"),
            (["--leave-out=2", "--rename=2=P7"], 2, "LineOrder"),
            (["--rename=1=NINE LETT"], 1, "NameTooLong"),
            (["--rename=1=07"], 1, "ZeroBefore"),
            (["--rename=3=P7", "--leave-out=9", "--rename=1=00"], 1, "ZeroBefore"),
            (["--leave-out=9", "--leave-out=8"], 8, "NoSuchLine"),
        ]:
            with self.subTest(changes):
                run = Run("", ["change", *changes, "{file}"], file=GSI_8, status=1, stderr=refused(line, fault))
                self.check([run])
        no_point = Run("", ["change", "--rename=3=P7", "{file}"], file=GSI_16, status=1, stderr=refused(3, "NoPoint"))
        self.check([no_point])

    def test_a_text_that_states_no_change_is_a_mistake(self):
        for option, texts, why in [
            ("leave-out <N>", ["", "x", "-1", "1 ", "4294967296", "00000000001", "1=P7", "1,2", "1-2"], LEFT_OUT),
            ("rename <N=NAME>", ["", "1", "1=", "x=P7", "=P7", "1=SEVENTEEN LETTERS", "1=P\u00e47"], RENAMED),
        ]:
            name = option.split()[0]
            for text in texts:
                with self.subTest(option=option, text=text):
                    status, stdout, stderr = answer_of(["change", f"--{name}={text}", EXAMPLE])
                    self.assertEqual((2, b""), (status, stdout))
                    self.assertTrue(stderr.startswith(mistake(option, text, why)), stderr)
        status, _, stderr = answer_of(["change", "--rename=x", "--leave-out=1", "--leave-out=y", EXAMPLE])
        self.assertEqual(2, status)
        self.assertTrue(stderr.startswith(mistake("leave-out <N>", "y", LEFT_OUT)), stderr)

    def test_the_copy_goes_to_a_new_file(self):
        """And only where there is none, and only where there is a copy."""
        field, copy = self.folder / "field.gsi", self.folder / "copy.gsi"
        field.write_bytes(GSI_8)
        self.assertEqual((1, b"", refused(9, "NoSuchLine")), answer_of(["change", "--leave-out=9", field, copy]))
        self.assertFalse(copy.exists())
        self.assertEqual((0, b"", out(1)), answer_of(["change", "--leave-out=1", field, copy]))
        self.assertEqual(GSI_8.split(b"\n", 1)[1], copy.read_bytes())
        status, stdout, stderr = answer_of(["change", "--leave-out=2", field, copy])
        self.assertEqual((2, b""), (status, stdout))
        self.assertIn(b"copy.gsi", stderr)
        self.assertEqual(GSI_8.split(b"\n", 1)[1], copy.read_bytes())
        self.assertEqual(GSI_8, field.read_bytes())
        field.write_bytes(GSI_8.split(b"\n", 1)[0])
        self.assertEqual((0, b"", out(1)), answer_of(["change", "--leave-out=1", field, self.folder / "empty.gsi"]))
        self.assertEqual(b"", (self.folder / "empty.gsi").read_bytes())

    def test_a_folder_is_read_by_nobody(self):
        self.assertEqual((1, b"", NOTHING_READ), answer_of(["change", self.folder]))

    def test_a_file_that_is_too_long_is_refused(self):
        field = self.folder / "field.gsi"
        field.write_bytes(bytes(model.LONGEST_FILE + 1))
        self.assertEqual((1, b"", b"refused: field file: FileTooLong\n"), answer_of(["change", field]))
        field.write_bytes(bytes(model.LONGEST_FILE))
        self.assertEqual((0, bytes(model.LONGEST_FILE), b""), answer_of(["change", field]))

    def test_copies_are_those_of_the_model(self):
        chance = random.Random(55)
        cases = [self.case(nth, chance) for nth in range(COPIES)]
        answers = side_by_side(lambda case: answer_of(case[0]), cases)
        for (args, expected), answer in zip(cases, answers, strict=True):
            with self.subTest(args):
                self.assertEqual(expected, answer)

    def case(self, nth, chance):
        """A run over some lines with ends of each kind, and its answer."""
        lines = chance.choices(JOB.read_bytes().splitlines(), k=chance.randrange(1, 9)) + [b"", b"  ", b"410001+10"]
        chance.shuffle(lines)
        data = b"".join(line + chance.choice([b"\n", b"\r\n", b"\r"]) for line in lines)
        path = self.folder / f"{nth}.gsi"
        path.write_bytes(data)
        names = [None, None, b"P7", b"TOWER", b"NINE LETT", b"07", b"0", b"A=B"]
        changes = [(chance.randrange(1, 11), chance.choice(names)) for _ in range(chance.randrange(4))]
        options = [
            f"--leave-out={line}" if name is None else f"--rename={line}={name.decode()}" for line, name in changes
        ]
        outs = [line for line, name in changes if name is None]
        names = [(line, name) for line, name in changes if name is not None]
        return ["change", *options, path], model.changed(data, outs, names)


if __name__ == "__main__":
    unittest.main()
