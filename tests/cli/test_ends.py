"""Ends of a process: streams closed, full or left; files of all kinds; signals; huge input.

No run leaves half a line, or takes more than its time.
"""

import contextlib
import os
import select
import signal
import socket
import subprocess
import threading
import unittest

import model
import test_generated
from against_model import FIELD, SHEET, TABLE
from processes import state_of, wants_more
from program import PROGRAM, TIME, ProgramTest, answer_in_shell, answer_of, until
from worked import JOB

REFUSED_WRITE = b"refused: write failed\n"

ACCEPTED = model.check(FIELD, SHEET)


def refused(reason):
    return 1, b"", f"refused: {reason}\n".encode()


class EndsTest(ProgramTest):
    def setUp(self):
        super().setUp()
        self.field = self.file("field.gsi", FIELD)
        self.sheet = self.file("sheet.csv", SHEET)
        self.table = self.file("table.csv", TABLE)
        self.runs = [
            ["words", self.field],
            ["list", self.field],
            ["list", "--csv", self.field],
            ["means", self.field, "S1"],
            ["check", self.field, self.sheet],
            ["directions", self.field, "S1"],
            ["report", self.field, "S1"],
            ["report", "--csv", self.field, "S1"],
            ["compare", self.field, "S1", self.table],
            ["differences", self.field, "S1", self.table],
            ["mark", "--station=S1", self.file("job.gsi", JOB)],
            ["change", "--leave-out=1", self.field],
        ]

    def file(self, name, content):
        path = self.folder / name
        path.write_bytes(content)
        return path


class StreamsTest(EndsTest):
    def test_an_output_without_room(self):
        for args in self.runs:
            with self.subTest(args[0]):
                self.assertEqual((1, b"", REFUSED_WRITE), answer_in_shell('"$@" > /dev/full', *args))

    @unittest.skipIf("STATION_CHECK" in os.environ, "another program may open closed streams anew")
    def test_a_closed_output(self):
        for args in self.runs:
            for closed in [">&-", "<&- >&-"]:
                with self.subTest(args[0], closed=closed):
                    answer = answer_in_shell(f'"$@" {closed}', *args)
                    self.assertEqual((1, b"", REFUSED_WRITE), answer)

    def test_closed_streams_that_are_not_used(self):
        for args in self.runs:
            for closed in ["<&-", "2>&-", "<&- 2>&-"]:
                with self.subTest(args[0], closed=closed):
                    status, stdout, said = answer_of(args)
                    said = b"" if "2>" in closed else said
                    self.assertEqual((status, stdout, said), answer_in_shell(f'"$@" {closed}', *args))

    def test_a_failing_standard_error_changes_no_status(self):
        folder = str(self.folder)
        read = [["words", folder], ["list", folder], ["means", folder, "S1"]]
        read += [["mark", folder], ["change", folder]]
        of_two = [["check", self.field, folder]]
        of_two += [[command, self.field, "S1", folder] for command in ["compare", "differences"]]
        named = [[command, self.field, "S2"] for command in ["directions", "report"]]
        named.append(["report", "--csv", self.field, "S2"])
        above = [[command, "--residual=0", self.field, "S1"] for command in ["directions", "report"]]
        for command in ["compare", "differences"]:
            above.append([command, "--residual=0", self.field, "S1", self.table])
        for args in [*read, *of_two, *named, *above]:
            for err in ["2> /dev/full", "2>&-"]:
                with self.subTest(args[0], err=err):
                    self.assertEqual((1, b"", b""), answer_in_shell(f'"$@" {err}', *args))

    def test_a_pipe_whose_reader_left(self):
        for args in self.runs:
            with self.subTest(args[0]):
                reader, writer = os.pipe()
                os.close(reader)
                streams = {"stdout": writer, "stderr": subprocess.PIPE}
                done = subprocess.run([PROGRAM, *args], **streams, timeout=TIME)
                os.close(writer)
                self.assertEqual((1, REFUSED_WRITE), (done.returncode, done.stderr))

    def test_a_reader_that_leaves_after_some_bytes(self):
        large = self.file("large.gsi", FIELD * 10_000)
        pipes = {"stdout": subprocess.PIPE, "stderr": subprocess.PIPE}
        with subprocess.Popen([PROGRAM, "words", large], **pipes) as run:
            self.assertTrue(select.select([run.stdout], [], [], TIME)[0])
            self.assertEqual(b"1 1 41", os.read(run.stdout.fileno(), 6))
            run.stdout.close()
            _, said = run.communicate(timeout=TIME)
            self.assertEqual((REFUSED_WRITE, 1), (said, run.returncode))


class FilesTest(EndsTest):
    def test_a_folder_cannot_be_read(self):
        folder = str(self.folder)
        for args, reason in [
            (["list", folder], "block 1: Read"),
            (["means", folder, "S1"], "block 1: Read"),
            (["check", folder, self.sheet], "block 1: Read"),
            (["check", self.field, folder], "sheet: Read"),
            (["check", folder, folder], "block 1: Read"),
            (["directions", folder, "S1"], "block 1: Read"),
            (["report", folder, "S1"], "block 1: Read"),
            (["report", "--csv", folder, "S1"], "block 1: Read"),
            (["compare", folder, "S1", self.table], "block 1: Read"),
            (["compare", self.field, "S1", folder], "table: Read"),
            (["compare", self.field, "S2", folder], "no station\nthe file has S1"),
            (["differences", folder, "S1", self.table], "block 1: Read"),
            (["differences", self.field, "S1", folder], "table: Read"),
            (["differences", self.field, "S2", folder], "no station\nthe file has S1"),
            (["mark", folder], "block 1: Read"),
            (["mark", "--station=S1", folder], "block 1: Read"),
            (["change", folder], "field file: Read"),
        ]:
            with self.subTest(args):
                self.assertEqual(refused(reason), answer_of(args))

    def test_files_are_opened_before_any_is_read(self):
        missing, faulty = self.folder / "missing", self.file("faulty.gsi", b"?")
        listener = socket.socket(socket.AF_UNIX)
        self.addCleanup(listener.close)
        listener.bind(str(self.folder / "socket"))
        for args, path in [
            (["check", faulty, missing], missing),
            (["check", missing, self.folder / "too"], missing),
            (["check", missing, self.sheet], missing),
            (["compare", faulty, "S1", missing], missing),
            (["compare", missing, "S1", self.folder / "too"], missing),
            (["differences", faulty, "S1", missing], missing),
            (["differences", missing, "S1", self.folder / "too"], missing),
            (["list", missing], missing),
            (["means", missing, "S1"], missing),
            (["list", self.folder / "socket"], self.folder / "socket"),
            (["list", self.field / "below"], self.field / "below"),
            (["list", "x" * 5_000], "x" * 5_000),
        ]:
            with self.subTest(args):
                self.assertEqual((2, b"", f"cannot open {path}\n".encode()), answer_of(args))

    def test_devices(self):
        for args, answer in [
            (["list", "/dev/null"], (0, b"", b"")),
            (["words", "/dev/null"], (0, b"", b"")),
            (["means", "/dev/null", "S1"], refused("no station")),
            (["check", "/dev/null", self.sheet], refused("no station")),
            (["check", self.field, "/dev/null"], refused("sheet row 1: Unfinished")),
            (["words", "/dev/zero"], refused("block 1: LineTooLong")),
            (["list", "/dev/zero"], refused("block 1: LineTooLong")),
            (["means", "/dev/zero", "S1"], refused("block 1: LineTooLong")),
            (["check", "/dev/zero", self.sheet], refused("block 1: LineTooLong")),
            (["check", self.field, "/dev/zero"], refused("sheet: TooLong")),
            (["check", "/dev/zero", "/dev/zero"], refused("block 1: LineTooLong")),
            (["directions", "/dev/null", "S1"], refused("no station")),
            (["report", "/dev/null", "S1"], refused("no station")),
            (["report", "--csv", "/dev/null", "S1"], refused("no station")),
            (["compare", "/dev/null", "S1", "/dev/zero"], refused("no station")),
            (["compare", self.field, "S1", "/dev/null"], refused("table: Missing 1\nthe table lacks A")),
            (["compare", self.field, "S1", "/dev/zero"], refused("table: TooLong")),
            (["differences", "/dev/null", "S1", "/dev/zero"], refused("no station")),
            (["differences", self.field, "S1", "/dev/null"], refused("table: Missing 1\nthe table lacks A")),
            (["differences", self.field, "S1", "/dev/zero"], refused("table: TooLong")),
        ]:
            with self.subTest(args):
                self.assertEqual(answer, answer_of(args))

    def test_standard_input_as_a_path(self):
        self.assertEqual(model.listed(FIELD), answer_of(["list", "/dev/stdin"], FIELD))
        self.assertEqual(ACCEPTED, answer_of(["check", self.field, "/dev/stdin"], SHEET))
        self.assertEqual(ACCEPTED, answer_of(["check", "/dev/stdin", self.sheet], FIELD))

    def test_one_path_for_both_files(self):
        for args, reason in [
            (["check", self.field, self.field], "sheet row 1: Fields"),
            (["compare", self.field, "S1", self.field], "table row 2: Number"),
            (["differences", self.field, "S1", self.field], "table row 2: Number"),
        ]:
            self.assertEqual(refused(reason), answer_of(args))

    def test_pipes_with_names(self):
        """Both files come in small pieces, the sheet's only after the field file was read."""
        cut, none = FIELD[:-30], refused("no station")
        for field, answer in [(FIELD, ACCEPTED), (cut, model.listed(cut)), (b"", none)]:
            with self.subTest(answer):
                paths = [self.folder / f"{name} {len(field)}" for name in ["field", "sheet"]]
                for path in paths:
                    os.mkfifo(path)
                pairs = zip(paths, [field, SHEET])
                writers = [
                    threading.Thread(target=self.write_pieces, args=pair, daemon=True)
                    for pair in pairs
                ]
                for writer in writers:
                    writer.start()
                self.assertEqual(answer, answer_of(["check", *paths]))
                for writer in writers:
                    writer.join(TIME)

    @staticmethod
    def write_pieces(path, content):
        with contextlib.suppress(BrokenPipeError), open(path, "wb", buffering=0) as pipe:
            for at in range(0, len(content), 7):
                pipe.write(content[at : at + 7])


def take_signals_as_usual():
    """Of a process that becomes the program: signals that these tests were started to ignore, as
    what runs in the background is, end it all the same."""
    for number in [signal.SIGTERM, signal.SIGINT]:
        signal.signal(number, signal.SIG_DFL)
    signal.pthread_sigmask(signal.SIG_SETMASK, [])


class SignalsTest(EndsTest):
    def started(self, *args):
        pipes = {"stdin": subprocess.PIPE, "stdout": subprocess.PIPE, "stderr": subprocess.PIPE}
        run = subprocess.Popen([PROGRAM, *args], **pipes, preexec_fn=take_signals_as_usual)
        for end in [run.stdin, run.stdout, run.stderr]:
            self.addCleanup(end.close)
        self.addCleanup(run.wait, TIME)
        self.addCleanup(run.kill)
        return run

    def test_a_run_that_was_stopped_goes_on(self):
        for args, answer in [
            ([], model.words(FIELD)),
            (["list", "/dev/stdin"], model.listed(FIELD)),
            (["check", "/dev/stdin", self.sheet], ACCEPTED),
        ]:
            with self.subTest(args):
                run = self.started(*args)
                for piece in [FIELD[:100], FIELD[100:]]:
                    os.write(run.stdin.fileno(), piece)
                    run.send_signal(signal.SIGSTOP)
                    until(lambda: state_of(run) == "T")
                    run.send_signal(signal.SIGCONT)
                stdout, stderr = run.communicate(timeout=TIME)
                self.assertEqual(answer, (run.returncode, stdout, stderr))

    def test_a_fault_is_refused_while_more_may_come(self):
        """What comes after the first fault is not waited for."""
        refused = b"refused: block 1: SetOutside\n"
        named = [[command, "S1"] for command in ["means", "directions", "report"]]
        named.append(["report", "S1", "--csv"])
        for args in [["list"], ["list", "--csv"], *named, ["check", self.sheet]]:
            with self.subTest(args):
                run = self.started(args[0], "/dev/stdin", *args[1:])
                run.stdin.write(b"410001+00000020 42....+00000001\r\n")
                run.stdin.flush()
                self.assertEqual(1, run.wait(TIME))
                self.assertEqual((b"", refused), (run.stdout.read(), run.stderr.read()))

    def test_a_run_that_is_ended_leaves_whole_lines(self):
        """What waits for more input has printed whole lines, or nothing of a list, and stays so."""
        words = model.words(FIELD * 100)[1]
        for how in [signal.SIGTERM, signal.SIGINT, signal.SIGKILL]:
            runs = [([], FIELD * 100, b"\n"), (["list", "/dev/stdin"], FIELD, b"")]
            for args, field, last in runs:
                with self.subTest(how=how, args=args):
                    run = self.started(*args)
                    run.stdin.write(field)
                    run.stdin.flush()
                    printed = self.printed_so_far(run)
                    run.send_signal(how)
                    rest = run.communicate(timeout=TIME)
                    self.assertEqual((-how, (b"", b"")), (run.returncode, rest))
                    self.assertTrue(words.startswith(printed))
                    self.assertEqual(last, printed[-1:])

    @staticmethod
    def printed_so_far(run):
        """What a run prints until it has read all that it was given, and waits for more."""
        printed = []

        def waits():
            is_waiting = wants_more(run)
            if select.select([run.stdout], [], [], 0)[0]:
                printed.append(os.read(run.stdout.fileno(), 65_536))
                return not printed[-1]
            return is_waiting

        until(waits)
        return b"".join(printed)


class HugeTest(EndsTest):
    def test_endless_input(self):
        for lines, reason in [
            ("yes '110001+0000000A'", "block 1048577: FileTooLong"),
            ("yes ''", "block 1: FileTooLong"),
            ("yes A | tr -d '\\n'", "block 1: LineTooLong"),
            ("yes '   ' | tr '\\n' '\\r'", "block 1: FileTooLong"),
        ]:
            for command, *more in [["list"], ["means", "S1"], ["check", self.sheet]]:
                with self.subTest(lines, command=command):
                    answer = answer_in_shell(f'{lines} | "$@"', command, "/dev/stdin", *more)
                    self.assertEqual(refused(reason), answer)

    def test_an_endless_sheet(self):
        rows = ["yes 'sheet,1,S1,4,'", "yes ''"]
        for lines in [*rows, "yes '\"' | tr -d '\\n'", "yes , | tr -d '\\n'"]:
            with self.subTest(lines):
                check = answer_in_shell(f'{lines} | "$@"', "check", self.field, "/dev/stdin")
                self.assertEqual(refused("sheet: TooLong"), check)

    def test_a_line_of_16_megabytes(self):
        path = self.file("line.gsi", b"1" * model.LONGEST_FILE)
        for command, *more in [["words"], ["list"], ["means", "S1"], ["check", self.sheet]]:
            with self.subTest(command):
                self.assertEqual(refused("block 1: LineTooLong"), answer_of([command, path, *more]))

    def test_line_feeds_up_to_the_limit_and_past_it(self):
        within = self.file("within.gsi", b"\n" * model.LONGEST_FILE)
        past = self.file("past.gsi", b"\n" * (model.LONGEST_FILE + 1))
        self.assertEqual((0, b"", b""), answer_of(["list", within]))
        self.assertEqual(refused("no station"), answer_of(["means", within, "S1"]))
        self.assertEqual(refused("no station"), answer_of(["check", within, self.sheet]))
        for args in [["list", past], ["means", past, "S1"], ["check", past, self.sheet]]:
            with self.subTest(args[0]):
                self.assertEqual(refused("block 1: FileTooLong"), answer_of(args))

    def test_a_file_full_of_the_largest_stations(self):
        """Just as many bytes as a file may have: 42 of the largest stations, and blanks."""
        stations = [test_generated.station(f"S{n}", 40, 100) for n in range(42)]
        field = test_generated.lines(*stations) + b"\n"
        field += (b" " * 1_000 + b"\n") * ((model.LONGEST_FILE - len(field)) // 1_001)
        field += b"\n" * (model.LONGEST_FILE - len(field))
        full, past = self.file("full.gsi", field), self.file("past.gsi", field + b"\n")
        observations = b"".join(
            b"set %d, target %d: p %d, 2c 0, 2i 0\n" % (number, target, 2_000 * target)
            for number in range(1, 41)
            for target in range(1, 101)
        )
        heads = (b"station S%d: 40 sets, 100 targets, 4000 directions\n" % n for n in range(42))
        listed = b"".join(head + observations for head in heads)
        self.assertEqual((0, listed, b""), answer_of(["list", full]))
        status, sheet, stderr = answer_of(["means", full, "S41"])
        self.assertEqual((0, b""), (status, stderr))
        counts = b"40 sets, 100 targets, 4000 directions"
        accepted = b"accepted S41: %s, greatest residual 0/4000\n" % counts
        check = answer_of(["check", full, self.file("means.csv", sheet)])
        self.assertEqual((0, accepted, b""), check)
        blocks = 42 * (1 + 40 * 201)
        self.assertEqual(refused(f"block {blocks + 1}: FileTooLong"), answer_of(["list", past]))


if __name__ == "__main__":
    unittest.main()
