"""The edge of the program: each option and flag of each command in each order and form, with a value
that changes the answer; where a command has flags, each choice of its options, in orders and forms
that are drawn; limits in mgon and in their units, what is nearly one, and their ends; command lines
of 1 to 20 words; paths of many forms and lengths, and of drawn names and endings, beside files of
like names that would answer otherwise. The page of trust shows what asks the system."""

import hashlib
import itertools
import os
import random
import shutil
import subprocess
import unittest
from typing import NamedTuple

import model
from against_model import Case
from program import EXAMPLE, EXAMPLE_SHEET, ROOT, SWEEP, ProgramTest, answer_of, side_by_side
from worked import (
    ACCEPTED,
    AGREES,
    JOB,
    LIST,
    LIST_ROWS,
    MARKED,
    NOTES,
    REPORT,
    REPORT_ROWS,
    SHEET,
    STATION,
    TABLE,
    edited,
    refused,
)

# How many command lines of each command are run beside those that change one option, where not all
# are.
SAMPLE = 100

# In how many orders and forms, which are drawn, each choice of options and values is run.
ORDERS = 30 if SWEEP else 1

# How many options stand on a command line in each order and form at most: four have some 30,000.
TOGETHER = 3

# The station's table with one of its two directions 30 units off: one rotation leaves each 15 off.
TABLE_OFF = edited(TABLE, (b"50.000030", b"50.000060"))

# The same directions in degrees: 45.000054 are 50.00006 gon. Read in the unit of the other each of
# the two tables is 2 gon off or more.
DEGREES_OFF = edited(TABLE_OFF, (b"50.000060", b"45.000054"))

WITHIN_15 = edited(AGREES, (b"within 0.000 mgon, limit 0.010", b"within 0.015 mgon, limit 0.015"))

DIFFERENCES_15 = b"""\
target,stated,least squares,difference,from the median
A,0.000000,0.000000,-0.015,0.000
B,50.000060,50.000030,0.015,0.030
"""


class Option(NamedTuple):
    """An option, with a value that changes nothing and one that is answered so; and these in mgon,
    where it states a limit."""

    name: str
    kept: str
    changed: str
    answer: tuple
    in_mgon: tuple = ()


def refusal(fault):
    return 1, b"", refused(fault)


# In the order in which their faults are looked for.
LIMITS = [
    Option("--two-c", "10", "9", refusal("block 5: TwoC"), (".1mgon", "0.09mgon")),
    Option("--two-i", "2", "1", refusal("block 6: TwoI"), ("0,02mgon", "0.010mgon")),
]

RESIDUAL = Option("--residual", "1", "0", refusal("kernel: Residual 1"), ("0.0050mgon", "0.mgon"))

# The same of the least-squares directions.
ABOVE_0 = "set 1, A: the greatest residual, above the limit of 0.000 mgon"
ADJUSTED = RESIDUAL._replace(answer=refusal(f"adjust: Residual 1\n{ABOVE_0}"))

APART_15 = refusal("compare: Apart 0.015 mgon, limit 0.014 mgon")

WITHIN = Option("--within", "15", "14", APART_15, ("0.015mgon", "00.014mgon"))

DECIMALS = Option("--decimals", "6", "4", (0, b"A,0.0000\nB,50.0000\n", b""))

# The same limits where the answer shows them: what changes nothing is what is usual.
SHOWN_LIMITS = [
    *[limit._replace(kept="2000", in_mgon=("20mgon", limit.in_mgon[1])) for limit in LIMITS],
    ADJUSTED._replace(kept="2000", in_mgon=("10mgon", "0.mgon")),
]

# The flag that adds the digest of each file, and the commands that have it.
DIGESTS = "--sha256"
RECORDED = ["check", "compare", "report"]

# Each flag, with the commands that have it.
FLAGS = {
    DIGESTS: RECORDED,
    "--degrees": ["compare", "differences", "report"],
    "--csv": ["list", "report"],
}

# The words of each command, its options, and what it answers where none changes anything.
COMMANDS = {
    "check": ([str(EXAMPLE), str(EXAMPLE_SHEET)], [*LIMITS, RESIDUAL], ACCEPTED),
    "compare": ([str(EXAMPLE), "S1", "{table}"], [*LIMITS, ADJUSTED, WITHIN], WITHIN_15),
    "differences": ([str(EXAMPLE), "S1", "{table}"], [*LIMITS, ADJUSTED], DIFFERENCES_15),
    "directions": ([str(EXAMPLE), "S1"], [*LIMITS, ADJUSTED, DECIMALS], TABLE),
    "report": ([str(EXAMPLE), "S1"], SHOWN_LIMITS, REPORT % bytes(EXAMPLE)),
    "means": ([str(EXAMPLE), "S1"], LIMITS, SHEET),
    "list": ([str(EXAMPLE)], LIMITS, LIST),
}

# The options of a report beside its limits.
OF_REPORT = {"--table": ["{table}"], "--within": ["15", "0.014mgon"]}

# All options of each command.
OPTIONS_OF = {
    command: {
        *[option.name for option in options],
        *[flag for flag, commands in FLAGS.items() if command in commands],
        *(OF_REPORT if command == "report" else {}),
    }
    for command, (_, options, _) in COMMANDS.items()
}

# What a number may be written as.
SPELLINGS = [str, "+{}".format, "000{}".format]

# What a limit of 0 may be written as, and what is none: each is a text of an option's value. The
# last two are of 2^32 and 2^64 units.
NOUGHTS = ["0", "+0", "-0", "-000", "0mgon", ".0mgon", "0.mgon", "0,0mgon", "0.0000mgon", "000000000mgon"]
NO_LIMITS = [
    "", "mgon", ".mgon", ",mgon", "1 mgon", " 1mgon", "1mgon ", "-1mgon", "-0mgon", "+1mgon", "1e3", "1e1mgon", "0x1",
    "2.5", "0.3", "1.0", "-1", "--1", "1gon", "1Mgon", "1MGON", "1mgo", "mgon1", "1mgonmgon", "0.0001mgon", "0.0000001mgon",
    "0.1.1mgon", "0.1,1mgon", "1_0mgon", "\u0661mgon", "1\u00a0mgon", "0000000000mgon", "1000000000mgon", "9" * 40 + "mgon",
    "4294967296", "18446744073709551616",
]  # fmt: skip

# Of each option some texts of no whole number of its unit, its largest limit, and one unit more.
BOUNDS = {
    "--two-c": (["0.305mgon", "0.001mgon"], ["1000000", "10000mgon", "10000.00mgon"], ["1000001", "10000.01mgon"]),
    "--two-i": (["0.305mgon", "0.001mgon"], ["1000000", "10000mgon", "10000.00mgon"], ["1000001", "10000.01mgon"]),
    "--residual": (["0.303mgon", "0.001mgon"], ["2000", "10mgon", "9.995mgon"], ["2001", "10.005mgon"]),
    "--within": (["0.3001mgon", "0.0005mgon"], ["1000000", "1000mgon", "0.305mgon"], ["1000001", "1000.001mgon"]),
}

# The ends of names of files, and whole names.
ENDINGS = ["", ".gsi", ".GSI", ".csv", ".txt", ".bak", ".gsi.bak", ".gz", "~", ".1", " ", ".tmp"]

NAMES = [
    "a", "A", "0", "1", "-a", "--help", "-", "--", "a b", " a", "a\nb", "a\\b", "a'b", 'a"b', "*", "?", "~", "$HOME",
    "%s", "{}", "@a", "#a", "a=b", "a:b", "a,b", "a;b", "...", ".a", "check", "S1", "station_check", "é", "日本", "\x7f",
    "a" * 100, "a" * 199, "a" * 201, "a" * 255,
]  # fmt: skip


# So many names of files are drawn, of up to so many bytes.
DRAWN, LONGEST_NAME = 2_000 if SWEEP else 100, 255


# The letters of such names, by their numbers: those of one byte of UTF-8 but 0, of two, three and four.
LETTERS = [range(1, 0x80), range(0x80, 0x800), range(0x4E00, 0xA000), range(0x1F300, 0x1F600)]


def drawn_name(draw):
    """A name of a file: of any letters, or of plain ones with an ending."""
    if draw.random() < 0.5:
        most = draw.choice([12, LONGEST_NAME])
        name = "".join(chr(draw.choice(draw.choice(LETTERS))) for _ in range(draw.randint(1, most)))
        name = name.replace("/", "")
        while len(name.encode()) > LONGEST_NAME:
            name = name[:-1]
        return name.encode() if name.strip(".") else b"a"
    letters = b"abcdefghijklmnopqrstuvwxyzABCDEFGHIJKLMNOPQRSTUVWXYZ0123456789_-~"
    stem, ending = (bytes(draw.choices(letters, k=draw.randint(1, most))) for most in (20, 9))
    return stem + b"." + ending


def like(name):
    """Names that one might open in the place of this one: with a byte more or less, in capitals, without
    its ending or with another."""
    stem, _, ending = name.rpartition(b".")
    near = {name[:-1], name[1:], name + b" ", name + b".gsi", b"." + name, name.upper(), name.lower()}
    near |= {stem, stem + b".gsi", stem + b".bak", ending, name.rstrip(), name.lstrip(b"-")}
    return {one for one in near - {name, b"", b".", b".."} if len(one) <= LONGEST_NAME}


def orders(words, options):
    """The words in their order with each option somewhere, as two words or as one; and the same with
    `--` after the last option. A flag is an option without a value."""
    for ordered in itertools.permutations(options):
        for forms in itertools.product(*[[[o]] if v is None else [[o, v], [f"{o}={v}"]] for o, v in ordered]):
            for places in itertools.combinations(range(len(words) + len(forms)), len(forms)):
                line, left, rest = [], list(forms), list(words)
                for place in range(len(words) + len(forms)):
                    if place in places:
                        line += left.pop(0)
                    else:
                        line.append(rest.pop(0))
                yield line
                after = len(words) - (places[-1] - len(forms) + 1 if places else 0)
                for at in range(after + 1):
                    yield [*line[: len(line) - at], "--", *line[len(line) - at :]]


def an_order(draw, words, options):
    """One of these orders and forms, which is drawn."""
    line, left = [], list(words)
    options = draw.sample(options, len(options))
    places = sorted(draw.choices(range(len(words) + 1), k=len(options)))
    for place, (name, value) in zip(places, options):
        while len(words) - len(left) < place:
            line.append(left.pop(0))
        line += [name] if value is None else draw.choice([[name, value], [f"{name}={value}"]])
    end = draw.choice([None, *range(len(left) + 1)])
    return [*line, *left] if end is None else [*line, *left[:end], "--", *left[end:]]


def runs_of(words, options, stdout):
    """Each command line of a command with a few of its options, and what it answers."""
    for given in itertools.product(["absent", "kept", "changed"], repeat=len(options)):
        stated = [(o, value) for o, value in zip(options, given) if value != "absent"]
        if len(stated) > TOGETHER:
            continue
        changed = [o.answer for o, value in stated if value == "changed"]
        expected = changed[0] if changed else (0, stdout, b"")
        for line in orders(words, [(o.name, getattr(o, value)) for o, value in stated]):
            yield line, expected


def choices_of(command):
    """Each choice of a command's options and their values; a flag has the value None."""
    values = {option.name: [option.kept, option.changed] for option in COMMANDS[command][1]}
    values |= {flag: [None] for flag, commands in FLAGS.items() if command in commands}
    values |= OF_REPORT if command == "report" else {}
    stated = [[[], *[[(name, value)] for value in of_name]] for name, of_name in values.items()]
    for chosen in itertools.product(*stated):
        yield dict(itertools.chain(*chosen))


def is_mistake(command, given):
    """Whether options don't go together: the rows of a report stand alone but for a digest, and what
    is said of a table needs one."""
    of_table = {"--within", "--degrees"} & set(given)
    if command != "report":
        return False
    if "--csv" in given:
        return bool(of_table) or "--table" in given
    return bool(of_table) and "--table" not in given


def answer_by_model(command, given, table):
    """What a command answers of the example and of the table at a path, given these options."""
    def limit(name, usual, unit, largest):
        return model.limit(given[name], unit, largest) if name in given else usual

    face = model.FACE_UNIT, model.LARGEST_LIMIT
    limits = [limit(name, model.USUAL_LIMIT, *face) for name in ("--two-c", "--two-i")]
    path, kinds = EXAMPLE_SHEET if command == "check" else table, ["--csv", "--table"]
    case = Case(
        "",
        " ".join([command, *[kind for kind in kinds if kind in given]]),
        STATION,
        path.read_bytes(),
        limits=model.Limits(*limits),
        residual=limit("--residual", None, model.RESIDUAL_UNIT, model.LARGEST_RESIDUAL),
        within=limit("--within", None, model.TABLE_UNIT, model.LARGEST_WITHIN),
        degrees="--degrees" in given,
    )
    status, text, said = case.expected(EXAMPLE, path)
    if DIGESTS not in given or not text:
        return status, text, said
    files = [(bytes(EXAMPLE), STATION), (bytes(path), case.sheet)]
    if command == "report" and "--csv" in given:
        return model.with_file_row((status, text, said), *files[0])
    if command == "report":
        return model.with_digests((status, text, said), *files[: 1 + ("--table" in given)])
    return status, text + b"".join(model.digest_line(*file) for file in files), said


def changes_one(line, options):
    """Whether as many options as may stand in a line, each as two words, and one has its other
    value."""
    stated = [option for option in options if option.name in line]
    if len(stated) < min(len(options), TOGETHER):
        return False
    return 1 == sum(line[line.index(option.name) + 1] == option.changed for option in stated)


class EdgeTest(ProgramTest):
    def test_what_no_contract_says_stands_on_the_page_of_trust(self):
        """Word for word: `main`, and the host that a run has."""
        sources = [ROOT / "crates" / path for path in ["station_program/src/main.rt", "command_run/src/host.rt"]]
        main, host = (path.read_text() for path in sources)
        begun, of_main, _ = main.partition("\nfn main(")[1:2] + main.partition("\nfn main(")[2].partition("\n}\n")[:2]
        of_host = "".join(host.partition("impl Host for HostRuntime {")[1:])
        page = (ROOT / "docs" / "TRUST.md").read_text()
        for said in [f"{begun}{of_main}\n}}\n", of_host]:
            self.assertIn(said, page)

    def assert_answers(self, runs):
        """The answer of each run of a list of command lines and what they answer."""
        answers = side_by_side(answer_of, [args for args, _ in runs])
        for (args, expected), answer in zip(runs, answers):
            with self.subTest(args=args):
                self.assertEqual(expected, answer)

    def test_each_option_counts_in_each_order_and_form(self):
        table = self.folder / "table.csv"
        table.write_bytes(TABLE_OFF)
        draw = random.Random(36)
        for command, (words, options, stdout) in COMMANDS.items():
            words = [word.format(table=table) for word in words]
            runs = list(runs_of(words, options, stdout))
            if WITHIN in options:  # where it is left out, 10 is too near
                runs = [run for run in runs if any(word.startswith("--within") for word in run[0])]
            plain = [run for run in runs if changes_one(run[0], options)]
            chosen = runs if SWEEP else [*plain, *draw.sample(runs, min(SAMPLE, len(runs)))]
            self.assert_answers([([command, *line], expected) for line, expected in chosen])

    def test_each_choice_of_options_counts(self):
        """Of each command with flags, over a table in gon and over one in degrees, in orders and
        forms that are drawn."""
        table, draw = self.folder / "table.csv", random.Random(39)
        for command, text in itertools.product(COMMANDS, [TABLE_OFF, DEGREES_OFF]):
            table.write_bytes(text)
            words = [word.format(table=table) for word in COMMANDS[command][0]]
            for given in choices_of(command):
                if not set(given) & {*FLAGS, *OF_REPORT}:
                    continue
                options = [(name, v and v.format(table=table)) for name, v in given.items()]
                lines = [[command, *an_order(draw, words, options)] for _ in range(ORDERS)]
                if is_mistake(command, given):
                    self.assert_mistakes(lines)
                else:
                    expected = answer_by_model(command, given, table)
                    self.assert_answers([(line, expected) for line in lines])

    def assert_mistakes(self, lines):
        for line, (status, stdout, stderr) in zip(lines, side_by_side(answer_of, lines)):
            with self.subTest(line=line):
                self.assertEqual((2, b"", b"error: "), (status, stdout, stderr[:7]))

    def test_a_flag_counts_in_each_order_and_form(self):
        """With one option at most, and of a report in degrees with its table."""
        table = self.folder / "table.csv"
        table.write_bytes(DEGREES_OFF)
        for flag, commands in FLAGS.items():
            for command in commands:
                words, options, _ = COMMANDS[command]
                words = [word.format(table=table) for word in words]
                needs_table = (flag, command) == ("--degrees", "report")
                needed = {flag: None} | ({"--table": str(table)} if needs_table else {})
                choices = [{o.name: value} for o in options for value in (o.kept, o.changed)]
                runs = []
                for stated in [{}, *choices]:
                    given = needed | stated
                    expected = answer_by_model(command, given, table)
                    ordered = orders(words, list(given.items()))
                    runs += [([command, *line], expected) for line in ordered]
                self.assertEqual(len(runs), len({tuple(line) for line, _ in runs}))
                self.assert_answers(runs[::7] if needs_table and not SWEEP else runs)

    def test_what_a_flag_adds_is_worked_out(self):
        """What the model answers of the flags, as it is written elsewhere by hand."""
        table = self.folder / "table.csv"
        table.write_bytes(TABLE)
        digests = model.digest_line(bytes(EXAMPLE), STATION)
        of_sheet = digests + model.digest_line(bytes(EXAMPLE_SHEET), SHEET)
        of_table = digests + model.digest_line(bytes(table), TABLE)
        for command, flag, stdout in [
            ("check", DIGESTS, ACCEPTED + of_sheet),
            ("compare", DIGESTS, AGREES + of_table),
            ("list", "--csv", LIST_ROWS),
            ("report", "--csv", REPORT_ROWS),
        ]:
            self.assertEqual((0, stdout, b""), answer_by_model(command, {flag: None}, table))
        self.assertIn(hashlib.sha256(STATION).hexdigest().encode(), digests)
        # 50.00006 degrees are 55.555622222 gon.
        table.write_bytes(TABLE_OFF)
        far = b"A,0.000000000,0.000000,-2777.796,0.000\nB,55.555622222,50.000030,2777.796,5555.592\n"
        for command, answer in [
            ("compare", refusal("compare: Apart 2777.797 mgon, limit 0.010 mgon")),
            ("differences", (0, DIFFERENCES_15.splitlines(keepends=True)[0] + far, b"")),
        ]:
            self.assertEqual(answer, answer_by_model(command, {"--degrees": None}, table))
        table.write_bytes(DEGREES_OFF)
        for command, stdout in [("compare", WITHIN_15), ("differences", DIFFERENCES_15)]:
            given = {"--degrees": None} | ({"--within": "15"} if command == "compare" else {})
            self.assertEqual((0, stdout, b""), answer_by_model(command, given, table))

    def test_a_flag_has_no_value_and_stands_once(self):
        for flag, command in itertools.product(FLAGS, COMMANDS):
            words = [word.format(table=EXAMPLE_SHEET) for word in COMMANDS[command][0]]
            if command == "report" and flag == "--degrees":
                words = [f"--table={EXAMPLE_SHEET}", *words]
            lines = [[f"{flag}=true"], [f"{flag}="], [flag, flag], [flag[:-1]], [flag.upper()]]
            lines += [] if command in FLAGS[flag] else [[flag]]
            self.assert_mistakes([[command, *line, *words] for line in lines])

    def test_a_path_stands_beside_its_digest_as_sha256sum_prints_it(self):
        """Each path twice: as that of the field file, and as that of the sheet. To `sha256sum` `-` is
        standard input."""
        for name in [*NAMES, "a\rb", "\\", "\\n", "./-"]:
            if name == "-":
                continue
            with self.subTest(name=name):
                path, other = self.empty_folder() / name, self.folder / "other"
                path.write_bytes(STATION)
                other.write_bytes(SHEET)
                self.assert_recorded(["check", DIGESTS, "--", name, "../other"], [name, "../other"], path.parent)
                path.write_bytes(SHEET)
                other.write_bytes(STATION)
                self.assert_recorded(["check", DIGESTS, "--", "../other", name], ["../other", name], path.parent)

    def assert_recorded(self, args, paths, folder):
        """The acceptance stands, and then what `sha256sum` prints of these paths; and `sha256sum -c`
        finds the files to be those, and no more so where one has changed."""
        status, stdout, stderr = answer_of(args, cwd=folder)
        sums = subprocess.run(["sha256sum", "--", *paths], cwd=folder, check=True, capture_output=True).stdout
        self.assertEqual((0, ACCEPTED + sums, b""), (status, stdout, stderr))
        lines = stdout.removeprefix(ACCEPTED)
        check = ["sha256sum", "--check", "--strict", "--quiet"]
        self.assertEqual(0, subprocess.run(check, cwd=folder, input=lines, capture_output=True).returncode)
        changed = folder / paths[0]
        before = changed.read_bytes()
        changed.write_bytes(before + b"\n")
        self.assertEqual(1, subprocess.run(check, cwd=folder, input=lines, capture_output=True).returncode)
        changed.write_bytes(before)

    def test_a_number_counts_however_it_is_written(self):
        for command in ["check", "list"]:
            words, options, stdout = COMMANDS[command]
            for option in options:
                for spelled in SPELLINGS:
                    for value, expected in [(option.kept, (0, stdout, b"")), (option.changed, option.answer)]:
                        number = spelled(value)
                        lines = [[option.name, number, *words], [*words, f"{option.name}={number}"]]
                        self.assert_answers([([command, *line], expected) for line in lines])

    def test_the_name_that_mark_is_told_counts_in_each_order_and_form(self):
        job = self.folder / "job.gsi"
        job.write_bytes(JOB)
        self.assert_answers([(["mark", str(job)], refusal("block 1: mark: NoSetUp"))])
        for name, told in [("S1", b"S1"), ("XY", b"XY"), ("-7", b"-7"), ("00C", b"C")]:
            copy = edited(MARKED, (b"000000S1", told.rjust(8, b"0")))
            expected = 0, copy, edited(NOTES, (b" S1:", b" " + told + b":"))
            lines = orders([str(job)], [("--station", name)])
            if name.startswith("-"):  # which would be an option, as a word of its own
                lines = [line for line in lines if f"--station={name}" in line]
            self.assert_answers([(["mark", *line], expected) for line in lines])

    def test_a_limit_counts_in_mgon_in_each_order_and_form(self):
        table = self.folder / "table.csv"
        table.write_bytes(TABLE_OFF)
        for command, (words, options, stdout) in COMMANDS.items():
            words = [word.format(table=table) for word in words]
            limits = [option for option in options if option.in_mgon]
            for stated in itertools.combinations(limits, min(len(limits), TOGETHER)):
                if WITHIN in options and WITHIN not in stated:  # where it is left out, 10 is too near
                    continue
                for changed in [None, *stated]:
                    expected = changed.answer if changed else (0, stdout, b"")
                    given = [(o.name, o.in_mgon[o is changed]) for o in stated]
                    runs = [([command, *line], expected) for line in orders(words, given)]
                    self.assert_answers(runs if SWEEP else runs[::7])

    def test_a_limit_is_a_whole_number_of_its_unit_up_to_the_largest(self):
        table = self.folder / "table.csv"
        table.write_bytes(TABLE_OFF)
        for command, (words, options, stdout) in COMMANDS.items():
            words = [word.format(table=table) for word in words]
            for option in options:
                if not option.in_mgon:
                    continue
                no_unit, most, more = BOUNDS[option.name]
                near = [] if option == WITHIN else [f"{WITHIN.name}={WITHIN.kept}"] * (WITHIN in options)
                answers = {n: option.answer for n in NOUGHTS} | {n: (0, stdout, b"") for n in most}
                # The answer shows the limit: of a report, and of a comparison the one beside W.
                shown = most if command == "report" else [*NOUGHTS, *most] * (option == WITHIN)
                answers |= {n: answer_by_model(command, {option.name: n}, table) for n in shown}
                self.assert_answers([
                    *[([command, f"{option.name}={n}", *words], answers[n]) for n in NOUGHTS],
                    *[([command, f"{option.name}={n}", *near, *words], answers[n]) for n in most],
                ])  # fmt: skip
                self.assert_no_limits(option.name, [*NO_LIMITS, *no_unit, *more], command, words)

    def assert_no_limits(self, option, texts, command, words):
        """None of these is a limit of an option, and what is one is said."""
        for text in texts:
            with self.subTest(command=command, option=option, text=text):
                status, out, err = answer_of([command, f"{option}={text}", *words])
                self.assertEqual((2, b""), (status, out))
                begin = f"error: invalid value '{text}' for '{option} <LIMIT>': state mgon, as 0."
                self.assertTrue(err.startswith(begin.encode()), err)

    def test_the_limit_of_a_table_in_a_report_is_a_whole_number_of_its_unit(self):
        table = self.folder / "table.csv"
        table.write_bytes(TABLE_OFF)
        words = [f"--table={table}", str(EXAMPLE), "S1"]
        no_unit, most, more = BOUNDS["--within"]
        for text in [*NOUGHTS, *most]:
            expected = answer_by_model("report", {"--table": table, "--within": text}, table)
            self.assertEqual(expected, answer_of(["report", f"--within={text}", *words]))
        self.assert_no_limits("--within", [*NO_LIMITS, *no_unit, *more], "report", words)

    def test_of_two_limits_that_are_none_the_first_is_named(self):
        for line, named in [
            (["--two-i=x", "--two-c=y"], b"'y' for '--two-c "),
            (["--residual=x", "--two-i=y"], b"'y' for '--two-i "),
            (["--within=x", "--residual=y"], b"'y' for '--residual "),
            (["--csv", "--within=x", "--residual=y"], b"'y' for '--residual "),
            (["--residual=x"], b"'x' for '--residual "),
        ]:
            for command, (words, _, _) in COMMANDS.items():
                options = {word.partition("=")[0] for word in line}
                if not options <= OPTIONS_OF[command]:
                    continue
                words = [word.format(table=EXAMPLE_SHEET) for word in words]
                with self.subTest(line=line, command=command):
                    status, out, err = answer_of([command, *line, *words])
                    self.assertEqual((2, b""), (status, out))
                    self.assertIn(named, err)

    def test_each_number_of_words_is_read_to_its_last(self):
        explained = answer_of(["explain", "TwoC"])
        self.assertEqual((0, b""), explained[::2])
        for before in range(19):
            line = ["explain", *["block"] * before, "4:", "TwoC"]
            self.assertEqual(explained, answer_of(line), line)
            status, stdout, stderr = answer_of([*line, "9x"])
            self.assertEqual((2, b""), (status, stdout))
            self.assertIn(b"no fault has the name", stderr)
            status, stdout, stderr = answer_of(["list", str(EXAMPLE), *["--two-c=10"][: before % 2], *["more"] * before])
            self.assertEqual((2, b"") if before else (0, LIST), (status, stdout))

    def empty_folder(self):
        """A folder of its own, with nothing in it."""
        folder = self.folder / "files"
        shutil.rmtree(folder, ignore_errors=True)
        folder.mkdir()
        return folder

    def test_the_file_of_a_path_is_read_and_no_other(self):
        """Beside each file lie others whose names are like its own, and which would answer otherwise."""
        for stem in ["field", "a"]:
            for ending in ENDINGS:
                name = stem + ending
                others = {stem + other for other in ENDINGS} - {name}
                for field, answer in [
                    (STATION, (0, LIST, b"")),
                    (b"Z" + STATION, refusal("block 1: Word 1")),
                    (STATION[1:], refusal("block 1: Word 1")),
                    (None, (2, b"", b"cannot open {}\n")),
                ]:
                    with self.subTest(name=name, field=field):
                        folder = self.empty_folder()
                        for other in others:
                            (folder / other).write_bytes(b"x" if field == STATION else STATION)
                        if field is not None:
                            (folder / name).write_bytes(field)
                        path = str(folder / name)
                        status, stdout, stderr = answer
                        stderr = stderr.replace(b"{}", path.encode())
                        self.assertEqual((status, stdout, stderr), answer_of(["list", path]))

    def test_the_file_of_a_drawn_name_is_read_and_no_other(self):
        """As a field file and as a sheet."""
        draw = random.Random(40)
        for _ in range(DRAWN):
            name = drawn_name(draw)
            folder = bytes(self.empty_folder()) + b"/"
            for other in like(name):
                with open(folder + other, "wb") as file:
                    file.write(b"x")
            with self.subTest(name=name):
                for content, words, expected in [
                    (STATION, ["list", "--", name], (0, LIST, b"")),
                    (SHEET, ["check", "--", EXAMPLE, name], (0, ACCEPTED, b"")),
                    (b"y", ["list", "--", name], refusal("block 1: Word 1")),
                ]:
                    with open(folder + name, "wb") as file:
                        file.write(content)
                    self.assertEqual(expected, answer_of(words, cwd=folder))
                # What is not there is not found under another name.
                os.remove(folder + name)
                for other in like(name):
                    with open(folder + other, "wb") as file:
                        file.write(STATION)
                status, stdout, stderr = answer_of(["list", "--", name], cwd=folder)
                self.assertEqual((2, b"", b"cannot open "), (status, stdout, stderr[:12]))

    def test_the_field_file_is_the_first_path_whatever_its_name(self):
        for first, second in itertools.product([f"a{ending}" for ending in ENDINGS], [f"b{e}" for e in ENDINGS]):
            gsi, sheet = self.folder / first, self.folder / second
            gsi.write_bytes(STATION)
            sheet.write_bytes(SHEET)
            with self.subTest(first=first, second=second):
                self.assertEqual((0, ACCEPTED, b""), answer_of(["check", str(gsi), str(sheet)]))
                self.assertEqual(refusal("block 1: Word 1"), answer_of(["check", str(sheet), str(gsi)]))
                sheet.write_bytes(TABLE_OFF)
                self.assertEqual(
                    (0, WITHIN_15, b""), answer_of(["compare", "--within=15", str(gsi), "S1", str(sheet)])
                )
                self.assertEqual(refusal("block 1: Word 1"), answer_of(["compare", str(sheet), "S1", str(gsi)]))
            gsi.unlink()
            sheet.unlink()

    def test_a_path_of_any_form_is_opened(self):
        for name in NAMES:
            with self.subTest(name=name):
                path = self.empty_folder() / name
                path.write_bytes(STATION)
                forms = [str(path), f"{path.parent}//{name}", f"{path.parent}/../files/./{name}"]
                for form in forms:
                    self.assertEqual((0, LIST, b""), answer_of(["list", form]))
                self.assertEqual((0, LIST, b""), answer_of(["list", "--", name], cwd=path.parent))
                self.assertEqual((0, LIST, b""), answer_of(["list", f"./{name}"], cwd=path.parent))
                path.write_bytes(b"x")
                self.assertEqual(refusal("block 1: Word 1"), answer_of(["list", "--", name], cwd=path.parent))

    def test_a_path_of_any_length_is_opened(self):
        """Each length up to a hundred, and up to the longest that the system takes."""
        field = self.folder / "f"
        field.write_bytes(STATION)
        longest = 4_095
        for length in [*range(3, 100), *range(190, 260), 1_000, 2_000, longest - 1, longest]:
            path = "./" * (length // 2 - 1 + length % 2) + ("f" if length % 2 else "/f")
            with self.subTest(length=length):
                self.assertEqual(length, len(path))
                self.assertEqual((0, LIST, b""), answer_of(["list", path], cwd=self.folder))
        too_long = "./" * 2_047 + "/f"
        said = f"cannot open {too_long}\n".encode()
        self.assertEqual((2, b"", said), answer_of(["list", too_long], cwd=self.folder))


if __name__ == "__main__":
    unittest.main()
