"""The command line: statuses, streams and messages as users meet them."""

import os
import resource
import shlex
import shutil
import subprocess
import sys
import time

import model
from program import (
    EXAMPLE,
    EXAMPLE_SHEET,
    EXAMPLE_TABLE,
    PROGRAM,
    ROOT,
    TIME,
    ProgramTest,
    answer_in_shell,
    answer_of,
    answer_to,
)
from worked import (
    ACCEPTED,
    AGREES,
    DIFFERENCES,
    LIST,
    REPORT,
    REPORT_ROWS,
    SHEET,
    STATION,
    TABLE,
    refused,
)

sys.path.insert(0, str(ROOT / "tools"))
import manuals  # noqa: E402

# The words of each command for the field file `{gsi}`, and what it answers to the example.
COMMANDS = {
    "check": ["check", "{gsi}", str(EXAMPLE_SHEET)],
    "compare": ["compare", "{gsi}", "S1", str(EXAMPLE_TABLE)],
    "differences": ["differences", "{gsi}", "S1", str(EXAMPLE_TABLE)],
    "means": ["means", "{gsi}", "S1"],
    "directions": ["directions", "{gsi}", "S1"],
    "report": ["report", "{gsi}", "S1"],
    "report --csv": ["report", "--csv", "{gsi}", "S1"],
    "list": ["list", "{gsi}"],
    "words": ["words", "{gsi}"],
}

OF_EXAMPLE = {
    "check": ACCEPTED,
    "compare": AGREES,
    "differences": DIFFERENCES,
    "means": SHEET,
    "directions": TABLE,
    "report": REPORT,
    "report --csv": REPORT_ROWS,
    "list": LIST,
    "words": model.words(STATION)[1],
}



def printed(command, path):
    """What a command prints of the example, which stands at this path: the report names it."""
    text = OF_EXAMPLE[command]
    return text % os.fsencode(path) if command == "report" else text


# The commands that have limits of 2c and 2i. The report tells them in its head.
LIMITED = ["check", "compare", "differences", "means", "directions", "report", "report --csv", "list"]

# The commands that have a limit of residuals, and those that read a field file and have none.
HELD = ["check", "compare", "differences", "directions", "report"]
NOT_HELD = ["means", "list", "words", "mark", "change"]

NO_MEMORY = (1, b"", b"refused: out of memory\n")

# The status that the loader of shared libraries ends with.
NOT_LOADED = 127


MORE = b"\nFor more information, try '--help'.\n"

# What is said of a limit that is no whole number of its unit, or out of its range.
FACE_LIMITS = b"state mgon, as 0.3mgon: from 0mgon to 10000mgon, by 0.01;\nor units of 0.01 mgon: from 0 to 1000000\n"
RESIDUAL_LIMITS = (
    b"state mgon, as 0.3mgon: from 0mgon to 10mgon, by 0.005;\n"
    b"or half units of 0.005 mgon: from 0 to 2000\n"
)

# What 2c and 2i are, in the help of each command that has their limits.
FACE_DIFFERENCES = [
    b"The face difference 2c of a target",
    b"direction in face II, less that in face I, less 200 gon",
    b"The face difference 2i of a target",
    b"both its zenith angles together, less 400 gon",
]

# What the help of each command that has a limit of residuals says of it.
RESIDUALS_HELP = [b"--residual <LIMIT>", b"0.3mgon", b"half units", b"it is 10mgon", b"'check' then has none"]

NOT_TEXT = (
    b"error: an argument is not UTF-8 text\n\n"
    b"A file of such a name can be passed as standard input: "
    b"station_check list /dev/stdin < FILE\n"
)


def of_file(command, gsi):
    """The words of a command for a field file."""
    return [word.format(gsi=gsi) for word in COMMANDS[command]]


def cannot_open(path):
    return 2, b"", f"cannot open {path}\n".encode()


def answer_in(room, args):
    """The answer of the program in so many bytes of address space, or None where it couldn't be loaded."""
    try:
        answer = answer_of(args, preexec_fn=lambda: resource.setrlimit(resource.RLIMIT_AS, (room, room)))
    except (OSError, subprocess.SubprocessError):
        return None
    return answer if answer[0] != NOT_LOADED else None


class CommandLineTest(ProgramTest):
    def assert_answer(self, expected, args, *given):
        with self.subTest(args=args):
            self.assertEqual(expected, answer_of(args, *given))

    def test_each_command_answers_of_the_example(self):
        for command in OF_EXAMPLE:
            for path, *given in [[EXAMPLE], ["/dev/stdin", STATION]]:
                expected = 0, printed(command, path), b""
                self.assert_answer(expected, of_file(command, path), *given)

    def test_a_file_that_cannot_be_opened_is_named(self):
        missing, unsound = self.folder / "missing", self.folder / "unsound.gsi"
        unsound.write_bytes(b"5")
        for command in COMMANDS:
            for path in [missing, "-", f"{EXAMPLE}/"]:
                self.assert_answer(cannot_open(path), of_file(command, path))
        for gsi in [EXAMPLE, unsound, self.folder]:
            self.assert_answer(cannot_open(missing), ["check", str(gsi), str(missing)])
            for command in ["compare", "differences"]:
                self.assert_answer(cannot_open(missing), [command, str(gsi), "S9", str(missing)])
        other = self.folder / "other"
        self.assert_answer(cannot_open(missing), ["check", str(missing), str(other)])
        self.assert_answer(cannot_open(missing), ["compare", str(missing), "S1", str(other)])

    def test_an_empty_path_is_a_mistake(self):
        for args, named in [
            *((of_file(command, ""), "<GSI>") for command in COMMANDS),
            (["mark", ""], "<GSI>"),
            (["change", ""], "<GSI>"),
            (["check", EXAMPLE, ""], "<SHEET>"),
            (["compare", EXAMPLE, "S1", ""], "[TABLE]"),
            (["differences", EXAMPLE, "S1", ""], "[TABLE]"),
            (["report", "--table=", EXAMPLE, "S1"], "--table <TABLE>"),
            (["report", "--table", "", EXAMPLE, "S1"], "--table <TABLE>"),
        ]:
            said = f"error: a value is required for '{named}' but none was supplied\n"
            self.assert_answer((2, b"", said.encode() + MORE), args)

    def test_a_path_is_shown_on_one_line(self):
        for path, shown in [("a\nb", "a?b"), ("\x1b[31m", "?[31m"), ("\x7f\x85\u00e9", "??\u00e9")]:
            self.assert_answer(cannot_open(shown), of_file("list", path))

    def test_a_file_without_permission_cannot_be_opened(self):
        program, secret = self.folder / "station_check", self.folder / "secret.gsi"
        shutil.copy(PROGRAM, program)
        shutil.copy(EXAMPLE, secret)
        os.chmod(self.folder, 0o755)
        os.chmod(secret, 0)
        user = {"user": "nobody"} if os.geteuid() == 0 else {}
        self.assertEqual(cannot_open(secret), answer_to([program, "words", secret], **user))

    def test_a_folder_is_no_file(self):
        for command in COMMANDS:
            self.assert_answer((1, b"", refused("block 1: Read")), of_file(command, self.folder))
        self.assert_answer((1, b"", refused("sheet: Read")), ["check", EXAMPLE, self.folder])
        for station, reason in [("S1", "table: Read"), ("S9", "no station\nthe file has S1")]:
            args = ["compare", EXAMPLE, station, self.folder]
            self.assert_answer((1, b"", refused(reason)), args)

    def test_a_named_pipe_is_a_file(self):
        pipe = self.folder / "pipe"
        os.mkfifo(pipe)
        for command in OF_EXAMPLE:
            run = answer_in_shell(f"cat '{EXAMPLE}' > '{pipe}' & \"$@\"", *of_file(command, pipe))
            self.assertEqual((0, printed(command, pipe), b""), run, command)

    def test_an_empty_file_has_no_station(self):
        for command, expected in [
            ("check", (1, b"", refused("no station"))),
            ("compare", (1, b"", refused("no station"))),
            ("differences", (1, b"", refused("no station"))),
            ("means", (1, b"", refused("no station"))),
            ("directions", (1, b"", refused("no station"))),
            ("report", (1, b"", refused("no station"))),
            ("report --csv", (1, b"", refused("no station"))),
            ("list", (0, b"", b"")),
            ("words", (0, b"", b"")),
        ]:
            self.assert_answer(expected, of_file(command, "/dev/null"))
        unfinished = 1, b"", refused("sheet row 1: Unfinished")
        self.assert_answer(unfinished, ["check", EXAMPLE, "/dev/null"])
        missing = 1, b"", refused("table: Missing 1", "the table lacks A")
        self.assert_answer(missing, ["compare", EXAMPLE, "S1", "/dev/null"])

    def test_limits_are_those_of_the_command_line(self):
        for command in [command for command in LIMITED if command != "report"]:
            args, stdout = of_file(command, EXAMPLE), OF_EXAMPLE[command]
            for options, fault in [
                (["--two-c", "10", "--two-i", "2"], None),
                (["--two-c", "9"], "block 5: TwoC"),
                (["--two-i", "1"], "block 6: TwoI"),
                (["--two-i=2", "--two-c=10"], None),
                (["--two-c", "1000000", "--two-i", "1000000"], None),
                (["--two-c", "+0010"], None),
                (["--two-c", "0"], "block 5: TwoC"),
                (["--two-c", "0.1mgon", "--two-i", ".02mgon"], None),
                (["--two-c", "0.09mgon"], "block 5: TwoC"),
                (["--two-i", "0.01mgon"], "block 6: TwoI"),
            ]:
                expected = (1, b"", refused(fault)) if fault else (0, stdout, b"")
                self.assert_answer(expected, [*args, *options])
                self.assert_answer(expected, [args[0], *options, *args[1:]])

    def test_a_mistake_is_explained_on_standard_error(self):
        missing = b"error: the following required arguments were not provided:\n"
        mistakes = [
            (["words"], missing + b"  <GSI>\n"),
            (["list"], missing + b"  <GSI>\n"),
            (["check", "a"], missing + b"  <SHEET>\n"),
            (["compare", "a"], missing + b"  <STATION>\n"),
            (["differences", "a"], missing + b"  <STATION>\n"),
            (["report", "--language", "es", "a"], b"error: invalid value 'es' for '--language <CODE>': state en for English, "),
            (["report", "--note", "x", "--language", "", "a"], b"error: invalid value '' for '--language <CODE>': "),
            (["report", "--csv", "--pages", "a"], b"error: '--csv' prints rows alone: "),
            *(
                (["compare", "--columns", text, "a", "b"], f"error: invalid value '{text}' for '--columns ".encode())
                for text in ["", ",", "1", "Hz", "2,2", "0,1", "Target,", ",Hz", "2,Hz", "Target,6", "a,b,c"]
            ),
            (["nonsense"], b"error: unrecognized subcommand 'nonsense'\n"),
            (["residuals", "a", "b"], b"error: unrecognized subcommand 'residuals'\n"),
            (["--nonsense"], b"error: unexpected argument '--nonsense' found\n"),
            (["words", "a", "b"], b"error: unexpected argument 'b' found\n"),
            (["check", "a", "b", "c"], b"error: unexpected argument 'c' found\n"),
            (["directions", "a", "b", "c"], b"error: unexpected argument 'c' found\n"),
            (["report", "a", "b", "c"], b"error: unexpected argument 'c' found\n"),
            (["report", "--csv", "a", "b", "c"], b"error: unexpected argument 'c' found\n"),
            (["compare", "a", "b", "c", "d"], b"error: unexpected argument 'd' found\n"),
            (["differences", "a", "b", "c", "d"], b"error: unexpected argument 'd' found\n"),
            (["words", "--two-c", "1", "a"], b"error: unexpected argument '--two-c' found\n"),
            *(
                ([*args, "1", "a", "b"], f"error: unexpected argument '{args[1]}' found\n".encode())
                for args in [
                    *([command, "--residual"] for command in NOT_HELD),
                    ["compare", "--decimals"],
                    ["differences", "--within"],
                    ["differences", "--sha256"],
                    ["directions", "--within"],
                    ["report", "--decimals"],
                    ["check", "--within"],
                ]
            ),
            (["list", "--two-c", "-5", "a"], b"error: unexpected argument '-5' found\n"),
            (
                ["list", "a", "--two-c"],
                b"error: a value is required for '--two-c <LIMIT>' but none was supplied\n",
            ),
            *(
                (
                    [*of_file(command, "a"), "--residual", text],
                    f"error: invalid value '{text}' for '--residual <LIMIT>': ".encode() + RESIDUAL_LIMITS,
                )
                for command in HELD
                for text in ["2001", "0.3", "10.005mgon", "0.303mgon", "1gon"]
            ),
            *(
                ([*of_file(command, "a"), "--residual", "-1"], b"error: unexpected argument '-1' found\n")
                for command in HELD
            ),
            *(
                (
                    [*of_file(command, "a"), "--residual"],
                    b"error: a value is required for '--residual <LIMIT>' but none was supplied\n",
                )
                for command in HELD
            ),
            *(
                (
                    [*of_file(command, "a"), "--residual", "1", "--residual", "1"],
                    b"error: the argument '--residual <LIMIT>' cannot be used multiple times\n",
                )
                for command in HELD
            ),
            (
                ["directions", "--decimals", "9", "a", "b"],
                b"error: invalid value '9' for '--decimals <K>': 9 is not in 1..=8\n",
            ),
        ]
        for command in LIMITED:
            for option in ["two-c", "two-i"]:
                args = [*of_file(command, "a"), f"--{option}"]
                for value in ["1000001", "4294967296", "1e3", "2.5", " 1", "9" * 40, "0.305mgon"]:
                    invalid = f"error: invalid value '{value}' for '--{option} <LIMIT>': "
                    mistakes.append(([*args, value], invalid.encode() + FACE_LIMITS))
                twice = f"error: the argument '--{option} <LIMIT>' cannot be used multiple times\n"
                mistakes.append(([*args, "1", f"--{option}", "1"], twice.encode()))
        for args, message in mistakes:
            with self.subTest(args=args):
                status, stdout, stderr = answer_of(args)
                self.assertEqual((2, b""), (status, stdout))
                self.assertTrue(stderr.startswith(message), stderr)
                self.assertTrue(stderr.endswith(MORE), stderr)

    def test_a_mistake_shows_the_usage_of_its_command(self):
        """As its help shows it, by whatever name the program is called."""
        other = self.folder / "other"
        other.symlink_to(PROGRAM)
        for args in [
            *([COMMANDS[command][0], "--two-c=", *COMMANDS[command][1:]] for command in LIMITED),
            *([command, "--residual=0.3", *COMMANDS[command][1:]] for command in HELD),
            ["compare", "--within=0.3", "a", "b", "c"],
            ["differences", "--all", "a", "b", "c"],
            ["report", "--csv", "--signature", "a", "b"],
            ["report", "--language=es", "a"],
            ["report", "--decimal-comma", "a", "b"],
            ["list", "--decimal-comma", "a"],
            ["differences", "--json", "--decimal-comma", "a", "b", "c"],
            ["report", "--within=1", "a", "b"],
            ["report", "--degrees", "a", "b"],
            ["mark", "--station=", "a"],
            ["mark", "--sets=41", "a"],
            ["mark", "--targets=P7=1", "--targets=P7=1", "a"],
            ["mark", "--station-code=10", "a"],
            ["change", "--leave-out=x", "a"],
            ["change", "--rename=1", "a"],
            ["explain", "nonsense"],
            ["explain", "FaceTwise"],
        ]:
            for program in [PROGRAM, other]:
                shown = answer_to([program, args[0], "-h"])[1].splitlines(keepends=True)
                usage = [line for line in shown if line.startswith(b"Usage: ")]
                with self.subTest(args=args, program=program.name):
                    status, stdout, stderr = answer_to([program, *args])
                    self.assertEqual((2, b"", 1), (status, stdout, len(usage)))
                    self.assertIn(f" {program.name} {args[0]} ".encode(), usage[0])
                    self.assertTrue(stderr.endswith(b"\n\n" + usage[0] + MORE), stderr)

    def test_an_argument_that_is_no_text_is_a_mistake(self):
        for args in [
            [b"words", b"\xff.gsi"],
            [b"check", EXAMPLE, b"\xff.csv"],
            [b"means", EXAMPLE, b"S\xff"],
            [b"compare", EXAMPLE, b"S1", b"\xff.csv"],
            [b"differences", EXAMPLE, b"S1", b"\xff.csv"],
            [b"directions", EXAMPLE, b"S\xff"],
            [b"report", EXAMPLE, b"S\xff"],
            [b"report", b"--csv", EXAMPLE, b"S\xff"],
            [b"list", EXAMPLE, b"--two-c", b"\xff"],
            [b"\xff"],
        ]:
            self.assert_answer((2, b"", NOT_TEXT + MORE), args)

    def test_the_version_is_printed_on_standard_output(self):
        for args in [["--version"], ["-V"]]:
            self.assert_answer((0, f"station_check {manuals.release()[0]}\n".encode(), b""), args)

    def test_help_is_printed_on_standard_output(self):
        for args, parts in [
            (["--help"], [b"Exit status:", b"half units of 0.005 mgon", b"/dev/stdin"]),
            (["-h"], [b"Usage: "]),
            (["help"], [b"Usage: "]),
            *(([command, "--help"], RESIDUALS_HELP) for command in HELD),
            (["check", "--help"], [b"With --residual", b"no other full turns give a\nsmaller sum"]),
            (["means", "--help"], [b"[STATION]", b"--two-c <LIMIT>", b"[default: 20mgon]"]),
            (["means", "--help"], [b"if no residual\nlimit is stated"]),
            (["list", "--help"], [b"--csv", b"station,set,target,direction,2c,2i", b"in mgon with 2"]),
            (["list", "--help"], [b"0.01 mgon", b"--two-i <LIMIT>", b"[default: 20mgon]"]),
            (["compare", "--help"], [b"--within <LIMIT>", b"0.001 mgon", b"it is 0.01mgon;", b"[TABLE]", b"--all"]),
            *(([command, "--help"], [b"--degrees", b"59-04-09.18"]) for command in ["compare", "differences", "report"]),
            (["directions", "--help"], [b"--decimals <K>", b"[default: 6]", b"[STATION]", b"--all", b"--decimal-comma"]),
            (["differences", "--help"], [b"[TABLE]", b"--all", b"--two-c <LIMIT>", b"in mgon with 3", b"--decimal-comma", b"--json"]),
            (["report", "--help"], [b"[STATION]", b"--two-c <LIMIT>", b"degrees of freedom", b"in mgon with 3"]),
            (["report", "--help"], [b"--table <TABLE>", b"--within <LIMIT>", b"--date <TEXT>", b"--note <KEY=TEXT>", b"--sha256", b"--signature", b"--pages", b"--csv", b"--decimal-comma"]),
            *(([COMMANDS[command][0], "--help"], FACE_DIFFERENCES) for command in LIMITED),
            (["words", "--help"], [b"GSI-8, GSI-16 or both"]),
            (["help", "words"], [b"GSI-8, GSI-16 or both"]),
            (["check", "-h"], [f"Usage: {PROGRAM.name} check [OPTIONS] <GSI> <SHEET>\n".encode()]),
        ]:
            with self.subTest(args=args):
                status, stdout, stderr = answer_of(args)
                self.assertEqual((0, b""), (status, stderr))
                for part in parts:
                    self.assertIn(part, stdout)
                self.assertLessEqual(max(map(len, stdout.splitlines())), 100)
        for command in [*(words[0] for words in COMMANDS.values()), "explain"]:
            with self.subTest(command=command):
                stdout = answer_of([command, "--help"])[1]
                self.assertIn(b"Exit status:\n  0  ", stdout)
                self.assertIn(f"Example:\n  station_check {command} ".encode(), stdout)

    def test_the_only_station_may_be_left_out(self):
        """Of several the file's stations are told, and of a file with a fault that."""
        two, bad = self.folder / "two.gsi", self.folder / "bad.gsi"
        two.write_bytes(STATION + STATION.replace(b"42....+000000S1", b"42....+000000S2"))
        bad.write_bytes(b"nonsense\n")
        for name in ["compare", "differences", "means", "directions", "report", "report --csv"]:
            words = COMMANDS[name]
            place = words.index("S1")
            left_out = [*words[:place], *words[place + 1 :]]
            for file, answer in [
                (EXAMPLE, (0, printed(name, EXAMPLE), b"")),
                (two, (1, b"", refused("no station", "the file has S1, S2"))),
                (bad, answer_of(["list", bad])),
            ]:
                with self.subTest(name, file=file):
                    self.assert_answer(answer, [word.format(gsi=file) for word in left_out])
        table = ["report", "--table", EXAMPLE_TABLE, EXAMPLE]
        self.assertEqual(answer_of([*table, "S1"]), answer_of(table))
        self.assert_answer((1, b"", refused("no station")), ["directions", "/dev/null"])

    def test_columns_are_found_by_their_titles(self):
        rows = EXAMPLE_TABLE.read_bytes().splitlines(keepends=True)
        table = self.folder / "titled.csv"
        table.write_bytes(b"n;Target;Hz\n" + b"".join(b"9;" + row.replace(b",", b";") for row in rows))
        for words in [["compare", EXAMPLE], ["differences", EXAMPLE, "S1"]]:
            self.assertEqual(
                answer_of([*words, "--columns=2,3", table]), answer_of([*words, "--columns=Target,Hz", table])
            )
            for titles, reason in [("target,Hz", "NoTitle 1"), ("Target,V", "NoTitle 2"), ("Hz,Hz", "SameTitle")]:
                self.assert_answer((1, b"", refused(f"table: {reason}")), [*words, f"--columns={titles}", table])

    def test_an_output_that_takes_nothing_is_a_refusal(self):
        commands = [shlex.join(of_file(command, EXAMPLE)) for command in COMMANDS]
        for args in [*commands, "--help", "--version"]:
            for output in [">/dev/full", ">&-"]:
                with self.subTest(args=args, output=output):
                    answer = answer_in_shell(f'"$@" {args} {output}')
                    self.assertEqual((1, b"", b"refused: write failed\n"), answer)

    def test_an_input_that_cannot_be_read_is_a_refusal(self):
        self.assertEqual((1, b"", b"refused: block 1: Read\n"), answer_in_shell('"$@" <&-'))

    def test_an_input_that_would_block_is_a_refusal(self):
        """Opened anew by its path it is waited for, as `explain Read` says."""
        for args, answer in [([], (1, b"", refused("block 1: Read"))), (["list", "/dev/stdin"], (0, LIST, b""))]:
            reading, writing = os.pipe()
            os.set_blocking(reading, False)
            with subprocess.Popen(
                [PROGRAM, *args], stdin=reading, stdout=subprocess.PIPE, stderr=subprocess.PIPE
            ) as program:
                os.close(reading)
                time.sleep(0.2)
                try:
                    os.write(writing, STATION)
                except BrokenPipeError:
                    pass  # the program has ended
                os.close(writing)
                stdout, stderr = program.communicate(timeout=TIME)
                with self.subTest(args=args):
                    self.assertEqual(answer, (program.returncode, stdout, stderr))
        for part in [b"EAGAIN", b"/dev/stdin"]:
            self.assertIn(part, answer_of(["explain", "Read"])[1])

    def test_want_of_memory_is_a_refusal(self):
        """The room of the process grows page by page: the loader fails, then the program, until it has all it wants.

        What comes before the last failure of the loader is none of the program's answers; what comes after is, and a
        death by a signal would be one."""
        met = set()
        for args in [of_file("check", EXAMPLE), ["words", "x" * 100_000], ["--help"]]:
            with self.subTest(args[-1][:20]):
                ample, answers = answer_of(args), set()
                for room in range(1 << 20, 64 << 20, resource.getpagesize()):
                    answer = answer_in(room, args)
                    if answer == ample:
                        break
                    if answer is None:
                        answers.clear()
                    else:
                        answers.add(answer)
                self.assertEqual(ample, answer)
                self.assertLessEqual(answers, {NO_MEMORY})
                met |= answers
        if not met:
            self.skipTest("the loader of this machine wants more room than the program")

    def test_a_closed_standard_error_changes_no_status(self):
        for args, status in [
            (f"words {self.folder}", 1),
            (f"check {EXAMPLE} {self.folder}", 1),
            (f"list {self.folder}/missing", 2),
            ("nonsense", 2),
        ]:
            with self.subTest(args=args):
                self.assertEqual((status, b"", b""), answer_in_shell(f'"$@" {args} 2>&-'))
