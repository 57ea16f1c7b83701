#!/usr/bin/env python3
"""Leaves blocks out of a copy of a field file, renames them or puts codes in, and writes a log of
what and why.

    python3 prepare.py FIELD.gsi COPY.gsi --set P7 3 --why 'the tripod was moved'

The field file stays as it is. It is taken line by line, so that a file that station_check refuses
can be copied too. These are left out: blocks by their numbers; a set by its station and number;
with --closing the closing sights, which repeat at the end of a half set, in the same face, the
target that began it, or its pair at the end of a set; with --broken-off, in a job without codes, a
last set that was not ended; with --without-codes the blocks of codes 10, 20 and 30. The rules for
closing sights and broken sets leave nothing out where sights before the sets or after them make it
doubtful what belongs to a set. --rename gives stated blocks another name: to a measurement its word
11, to a code block its word 42. --capitals writes the names of measurements in capitals. --codes
puts in the codes of a station whose sets begin at stated blocks. --plain writes plain ASCII letters
for others, a blank for a tab, and drops byte order marks and bytes 1A at the ends of lines.

COPY.gsi.log has each line that was left out, changed or put in. The script prints the command
that shows that nothing else was changed.

Exit status: 0 the copy was written, 1 it was not (standard error says why), 2 a mistake on the
command line. Python 3.10 or later is all it needs.
"""

import argparse
import codecs
import os
import re
import shlex
import sys
import unicodedata
from argparse import ArgumentParser, Namespace
from collections import Counter
from collections.abc import Iterable, Iterator
from itertools import chain, groupby
from typing import Any, BinaryIO, NamedTuple

STATION, SET, END = "10", "20", "30"

# The indices of words: a point, a direction, a zenith angle, a slope distance, a code, its first
# information, and those of a line that sets up the instrument, which measures nothing.
POINT, DIRECTION, ZENITH, DISTANCE, CODE, INFORMATION = 11, 21, 22, 31, 41, 42
SET_UP = {84, 85, 86, 88}
MEASURED = {DIRECTION, ZENITH, DISTANCE}

# A half circle and a full circle, in units of 0.00001 gon, and the byte at the fourth place of an
# angle's information that says so.
HALF_CIRCLE, CIRCLE = 20_000_000, 40_000_000
GON = b"2"

# The bytes of a content, by whether the line is in GSI-16, and those of a word before it.
CONTENT = {False: 8, True: 16}
BEFORE = 7

# A word without its content: index, information, sign.
WORD = re.compile(rb"(\d\d)([!-~]{4})[+-]")

# Letters that are no plain letter with an accent, and what is written for them.
LETTERS = str.maketrans("ßøØæÆłŁđĐ\t", "soOaAlLdD ")

# What programs put where a file begins or ends: a byte order mark and the byte 1A. Where files were
# joined it stands at a line within.
AT_ENDS = re.compile(rb"^(?:\xef\xbb\xbf|\x1a)+|\x1a+$")
UTF_16 = (codecs.BOM_UTF16_LE, codecs.BOM_UTF16_BE)

# So many readings at most stand before the first set, as orientation sights; and so many where each
# target is sighted once, in the face in which the sets begin or in both, but the first perhaps again
# at the end.
MOST_BEFORE, MOST_SIGHTED = 3, 200

# A sight in both faces has so many readings, and a set so many at least.
PAIR, FEWEST_OF_SET = 2, 4

# A block, or those from one to another, or to the end.
NUMBERS = re.compile(r"([1-9]\d*)(?:(-)([1-9]\d*)?)?")
LAST = None


class Refused(Exception):
    """Why no copy is made."""


def escaped(text: str) -> str:
    """A text whose bytes are escapes where a terminal would not show them, or where it takes one
    for an escape."""
    plain = range(ord(" "), ord("~") + 1)
    return "".join(
        chr(byte) if byte in plain and byte not in b"\\'" else f"\\x{byte:02x}"
        for byte in os.fsencode(text)
    )


def shown(text: str) -> str:
    """A text for a terminal or a log: as it is, or with escapes if a sign in it controls one."""
    return text if text.isprintable() else escaped(text)


def quoted(path: str) -> str:
    """A path as a word for a shell."""
    return shlex.quote(path) if path.isprintable() else f"$'{escaped(path)}'"


# ---------------------------------------------------------------- blocks


class Word(NamedTuple):
    index: int
    information: bytes
    content: bytes
    begin: int  # where the content stands in the line

    def end(self) -> int:
        """Where the content ends."""
        return self.begin + len(self.content)


class Block:
    """A line that isn't blank: its number, its place among all lines, its bytes with their end, and
    its words up to the first that is none."""

    def __init__(self, number: int, place: int, line: bytes) -> None:
        self.number, self.place, self.line = number, place, line
        begin = len(codecs.BOM_UTF8) * line.startswith(codecs.BOM_UTF8)
        self.wide = line[begin : begin + 1] == b"*"
        self.words = list(self.words_of(line.rstrip(b"\r\n"), begin + self.wide))

    def words_of(self, text: bytes, at: int) -> Iterator[Word]:
        while word := WORD.match(text, at):
            begin = at + BEFORE
            # A letter of two bytes makes a word longer: it goes on to the next blank.
            end = text.find(b" ", begin + CONTENT[self.wide])
            end = len(text) if end < 0 else end
            yield Word(int(word[1]), word[2], text[begin:end], begin)
            at = end + 1

    def first_of(self, index: int) -> Word | None:
        """The first word of an index; else none."""
        return next((word for word in self.words if word.index == index), None)

    def name(self, index: int) -> str | None:
        """The content of a word without the zeros before it; of no such word none."""
        if word := self.first_of(index):
            return (word.content.lstrip(b"0") or word.content[-1:]).decode("latin-1")
        return None

    def begins_with(self, index: int) -> bool:
        return bool(self.words) and self.words[0].index == index

    def code(self) -> str | None:
        """The code of a code block; of a measurement none."""
        return self.name(CODE) if self.begins_with(CODE) else None

    def is_reading(self) -> bool:
        """Whether it is a measurement with a direction."""
        return self.begins_with(POINT) and self.first_of(DIRECTION) is not None

    def sets_up(self) -> bool:
        """Whether it is a measurement that sets up the instrument, and measures nothing itself."""
        indices = {word.index for word in self.words}
        return self.begins_with(POINT) and not MEASURED & indices and bool(SET_UP & indices)

    def target(self) -> str | None:
        return self.name(POINT)

    def face(self) -> int:
        """1 or 2, by the zenith angle."""
        word = self.first_of(ZENITH)
        if word is None or word.information[3:4] != GON or not word.content.isdigit():
            raise Refused(f"block {self.number}: no zenith angle in gon with five decimals")
        zenith = int(word.content)
        if zenith % HALF_CIRCLE == 0 or zenith > CIRCLE:
            raise Refused(f"block {self.number}: no face has the zenith angle {zenith}")
        return 1 if zenith < HALF_CIRCLE else 2

    def filled(self, content: str) -> bytes:
        """A content of a word in this line, with the zeros before it."""
        if len(content) > CONTENT[self.wide]:
            line = f"a line of GSI-{CONTENT[self.wide]}"
            raise Refused(f"block {self.number}: the name {content} is too long for {line}")
        return content.rjust(CONTENT[self.wide], "0").encode()

    def renamed(self, name: str) -> bytes:
        """The line with another name, or of a code that has none with this one."""
        word = self.first_of(POINT if self.begins_with(POINT) else INFORMATION)
        if word:
            begin, end, before = word.begin, word.end(), b""
        elif self.begins_with(CODE):
            begin, end, before = self.words[0].end(), self.words[0].end(), b" 42....+"
        else:
            raise Refused(f"block {self.number} has no name: neither word 11 nor word 41 first")
        return self.line[:begin] + before + self.filled(name) + self.line[end:]

    def in_capitals(self) -> bytes:
        """The line with the name of a measurement in capitals."""
        if not self.begins_with(POINT):
            return self.line
        name = self.words[0]
        return self.line[: name.begin] + name.content.upper() + self.line[name.end() :]

    def code_before(self, code: str, information: str | None, end: bytes) -> bytes:
        """A line with a code that is put before this one, as wide as it is."""
        words = b"*" * self.wide + b"41....+" + self.filled(code)
        words += b" 42....+" + self.filled(information) if information else b""
        return words + end

    def plain(self) -> bytes:
        """The line in plain ASCII, where each letter with an accent has its plain letter."""
        text = self.line.rstrip(b"\r\n")
        bare = Block(self.number, self.place, AT_ENDS.sub(b"", text))
        line, at = b"", 0
        for word in bare.words:
            content, width = self.in_plain(word.content), len(word.content)
            if width == CONTENT[bare.wide]:  # bytes, of which a letter may have had two
                content = content.rjust(width, b"0")
            line += self.in_plain(bare.line[at : word.begin]) + content
            at = word.end()
        return line + self.in_plain(bare.line[at:]) + self.line[len(text) :]

    def in_plain(self, piece: bytes) -> bytes:
        try:
            text = piece.decode()
        except UnicodeDecodeError:
            text = piece.decode("latin-1")
        letters = unicodedata.normalize("NFD", text.translate(LETTERS))
        text = "".join(letter for letter in letters if not unicodedata.combining(letter))
        for letter in text:
            if not letter.isascii() or not letter.isprintable():
                way = "--rename gives a block another name"
                raise Refused(f"block {self.number}: no plain letter stands for {letter!r}; {way}")
        return text.encode()


def lines_of(path: str) -> list[bytes]:
    """The lines of a field file with their ends, blank ones too."""
    try:
        with open(path, "rb") as file:
            text = file.read()
    except OSError as why:
        raise Refused(f"cannot read {path}: {why.strerror}") from None
    if text.startswith(UTF_16) or b"\0" in text[:2]:
        raise Refused(f"{path} is in UTF-16: save it as plain text, in ASCII, first")
    # A transfer may have left CR CR LF, of which station_check takes the first CR for the end.
    lines = re.findall(rb"[^\r\n]*(?:\r*\n|\r)|[^\r\n]+", text)
    if any(line.endswith(b"\r") for line in lines):
        raise Refused("its lines end in CR alone: save it with lines that end in LF or CR LF first")
    return lines


def blocks_of(lines: list[bytes]) -> list[Block]:
    full = [(place, line) for place, line in enumerate(lines) if line.strip(b" \r\n")]
    return [Block(number, *block) for number, block in enumerate(full, 1)]


# ---------------------------------------------------------------- what is left out


class MarkedSet(NamedTuple):
    """A set that codes mark: the name of its station, its number, its blocks."""

    station: str | None
    number: str | None
    blocks: list[Block]


def sets_of(blocks: Iterable[Block]) -> Iterator[MarkedSet]:
    """Each set, with the block of code 20 first."""
    station: str | None = None
    open_set: list[Block] | None = None
    for block in blocks:
        code = block.code()
        if code == STATION:
            station = block.name(INFORMATION)
        if code == SET:
            open_set = []
            yield MarkedSet(station, block.name(INFORMATION), open_set)
        if code in (STATION, END):
            open_set = None
        if open_set is not None:
            open_set.append(block)


def of_set(blocks: list[Block], station: str, number: str) -> list[Block]:
    """The blocks of a set."""
    found = [of_set.blocks for of_set in list(sets_of(blocks)) if of_set[:2] == (station, number)]
    if not found:
        raise Refused(f"station {station} has no set {number}")
    if len(found) > 1:
        raise Refused(f"station {station} has {len(found)} sets {number}")
    return found[0]


def readings_of_stations(blocks: list[Block]) -> list[list[Block]]:
    """The readings between lines that set up."""
    groups: list[list[Block]] = [[]]
    for block in blocks:
        groups += [[]] * block.sets_up()
        groups[-1] += [block] * block.is_reading()
    return groups


def readings_together(blocks: list[Block]) -> list[list[Block]]:
    """The readings of each set; where no code opens one, those between lines that set up."""
    marked = list(sets_of(blocks))
    of_sets = [[block for block in of_set.blocks if block.is_reading()] for of_set in marked]
    return of_sets or readings_of_stations(blocks)


def is_pair(first: Block, second: Block) -> bool:
    """Whether a target is read in both faces."""
    return first.target() == second.target() and {first.face(), second.face()} == {1, 2}


def are_pairs(readings: list[Block]) -> bool:
    """Whether each target is read in both faces before the next."""
    pairs = list(zip(readings[::2], readings[1::2]))
    return len(readings) % 2 == 0 and all(is_pair(*pair) for pair in pairs)


def closing_pairs(readings: list[Block]) -> Iterator[Block]:
    """The pairs of the opening target that stand between others and the end, or such a pair."""
    pairs = list(zip(readings[::2], readings[1::2]))
    between = False  # whether others follow the pair that opened
    for place, pair in enumerate(pairs):
        if pair[0].target() != pairs[0][0].target():
            between = True
            continue
        follows = pairs[place + 1][0].target() if place + 1 < len(pairs) else pair[0].target()
        if between and follows == pair[0].target():
            yield from pair
        between = False


def last_pair(readings: list[Block]) -> list[Block]:
    """The pair that stands after sets that were read by faces, of a target that begins a half set;
    none where that target's faces weren't read as often before it."""
    before, last = readings[:-2], readings[-2:]
    begins = [half[0].target() for half in half_sets(before) if len(half) > 1]
    if last[0].target() not in begins or not is_pair(*last):
        return []
    faces = [reading.face() for reading in before if reading.target() == last[0].target()]
    return last if faces.count(1) == faces.count(2) else []


def half_sets(readings: list[Block]) -> Iterator[list[Block]]:
    """Readings in one face, up to one of the same target as the reading before it."""
    for _, run in groupby(readings, lambda reading: reading.face()):
        half: list[Block] = []
        for reading in run:
            if half and half[-1].target() == reading.target():
                yield half
                half = []
            half.append(reading)
        yield half


def closing_among(readings: list[Block]) -> Iterator[Block]:
    """The readings of sets that close a half set, or pairs that close a set."""
    if are_pairs(readings):
        yield from closing_pairs(readings)
        return
    for first, *others in half_sets(readings):
        if len(others) > 1 and others[-1].target() == first.target():
            yield others[-1]
    yield from last_pair(readings)


def closing_sights(blocks: list[Block]) -> list[Block]:
    """The readings that close a half set, or pairs that close a set."""
    has_codes, closing = any(sets_of(blocks)), list[Block]()
    for readings in readings_together(blocks):
        found = list(closing_among(readings))
        if found and not has_codes:
            refuse_whole_sets(found, readings)
        closing += found
    if not closing:
        raise Refused("no set has a closing sight")
    return closing


def read_once(readings: list[Block]) -> list[list[Block]]:
    """Readings in parts, each up to where a target is read in a face once more."""
    parts: list[list[Block]] = []
    seen: set[tuple[str | None, int]] = set()
    for reading in readings:
        read = reading.target(), reading.face()
        if not parts or read in seen:
            parts.append([])
            seen = set()
        parts[-1].append(reading)
        seen.add(read)
    return parts


def is_whole(part: list[Block]) -> bool:
    """Whether each target is read in both faces, and there are two at least: all in one face and
    then in the other, or target by target."""
    turns = [one.face() != then.face() for one, then in zip(part, part[1:])]
    in_each = [{one.target() for one in part if one.face() == face} for face in (1, 2)]
    in_both = in_each[0] == in_each[1] and len(in_each[0]) > 1
    return in_both and (sum(turns) == 1 or are_pairs(part))


def ends_of(part: list[Block]) -> set[str | None]:
    """The targets with which the first half of a whole set begins and ends."""
    targets = list(dict.fromkeys(reading.target() for reading in part))
    return {targets[0], targets[-1]}


def are_sighted_once(readings: list[Block], face: int) -> bool:
    """Whether each target is sighted once, in this face or, one sight after the other, in both."""
    targets = [target for target, _ in groupby(reading.target() for reading in readings)]
    faces = Counter((reading.target(), reading.face()) for reading in readings)
    is_once = len(set(targets)) == len(targets) and max(faces.values(), default=0) <= 1
    return is_once and all(faces[target, face] for target in targets)


def without_again(readings: list[Block]) -> list[Block]:
    """Readings without those that read a target again, in a face in which it was read since another
    one was."""
    kept, faces, target = list[Block](), set[int](), None
    for reading in readings:
        if reading.target() != target:
            target, faces = reading.target(), set()
        if reading.face() not in faces:
            faces.add(reading.face())
            kept.append(reading)
    return kept


def without_closing(readings: list[Block]) -> list[Block]:
    """Readings without those behind the first, at their end and a pair at most, that read its target
    again."""
    end = len(readings)
    while end > max(1, len(readings) - PAIR) and readings[end - 1].target() == readings[0].target():
        end -= 1
    return readings[:end]


def may_open(readings: list[Block], face: int) -> bool:
    """Whether readings may be sights that belong to none of the sets, which begin in this face: a
    target may have been sighted again at once."""
    if len(readings) > MOST_BEFORE:
        return are_sighted_once(without_again(readings), face)
    in_this = {reading.target() for reading in readings if reading.face() == face}
    return {reading.target() for reading in readings} <= in_this


def may_stand_before(readings: list[Block], face: int) -> bool:
    """The same, or the first target may have been sighted again at the end."""
    return may_open(readings, face) or are_sighted_once(without_closing(readings), face)


def counts_before(readings: list[Block]) -> range:
    """How many readings may stand before sets, of which one has at least four: three, or more up to
    where a target is sighted in a face once more, but for one that is at once read again, and for the
    first one in both faces."""
    first = readings[:MOST_SIGHTED]
    kept = without_again(first)
    once = [len(part) + len(first) - len(kept) + PAIR for part in read_once(kept)[:1]]
    most = min(max([MOST_BEFORE, *once]), len(readings) - FEWEST_OF_SET)
    return range(max(most, 0) + 1)


def leave_whole_sets(before: list[Block], readings: list[Block]) -> bool:
    """Whether readings are whole sets, with the same ends, and those before may be sights that
    belong to none: in the face in which the sets begin, or in both."""
    if not readings or not may_stand_before(before, readings[0].face()):
        return False
    parts = read_once(readings)
    return all(map(is_whole, parts)) and len({frozenset(ends_of(part)) for part in parts}) == 1


def without_details(readings: list[Block]) -> list[Block]:
    """Readings up to the last of a target that is read in both faces."""
    read = {(reading.target(), reading.face()) for reading in readings}
    in_both = [at for at, one in enumerate(readings, 1) if (one.target(), 3 - one.face()) in read]
    return readings[: max(in_both, default=0)]


def counts_after(readings: list[Block]) -> Iterator[int]:
    """How many readings may stand after sets: none; check sights in face I, as many as that face
    has too many; or, where sets are read by faces, one sight in both faces."""
    yield 0
    faces = [reading.face() for reading in readings]
    more = faces.count(1) - faces.count(2)
    if 0 < more and 2 not in faces[-more:]:
        yield more
    if len(readings) > 2 and is_pair(*readings[-2:]) and not are_pairs(readings[:-2]):
        yield 2


def whole_sets(found: list[Block], readings: list[Block]) -> list[Block] | None:
    """Of readings those of all sets, wherever these begin, if they may be whole: up to the last
    reading; or up to check sights, where those that were found would take one from the sets."""
    readings = without_details(readings)
    numbers = {block.number for block in found}
    for before in counts_before(readings):
        for after in counts_after(readings[before:]):
            sets = readings[before : len(readings) - after]
            is_lost = after == 0 or numbers & {reading.number for reading in sets}
            if is_lost and leave_whole_sets(readings[:before], sets):
                return sets
    return None


def refuse_whole_sets(found: list[Block], readings: list[Block]) -> None:
    """Stops where readings, of which these closing sights were found, may be whole sets."""
    if sets := whole_sets(found, readings):
        raise Refused(
            "all sets are whole, and no sight closes one, if the first begins at block "
            f"{sets[0].number}: leave out by --blocks what the field book calls a closing sight"
        )


def ends_of_sets(readings: list[Block]) -> Iterator[int]:
    """The places at which each target was read as often in face I as in face II, and that which was
    read first comes again."""
    odd: Counter[str | None] = Counter()  # of each target how often more it was read in face I
    for place, reading in enumerate(readings):
        comes_again = place > 0 and reading.target() == readings[0].target()
        if comes_again and not any(odd.values()):
            yield place
        odd[reading.target()] += {1: 1, 2: -1}[reading.face()]


def broken_after(readings: list[Block], before: int) -> list[Block] | None:
    """Where so many readings stand before whole sets, the readings of a last set that lacks a face
    of a target, or ends with another target than the set before it: none of no such set. Nothing
    where they aren't whole sets, or more than one set may follow."""
    sights, rest = readings[:before], readings[before:]
    if leave_whole_sets(sights, without_details(rest)):
        return []
    *_, begin = 0, *ends_of_sets(rest)
    whole, last = rest[:begin], rest[begin:]
    if not leave_whole_sets(sights, whole):
        return None
    targets = {reading.target() for reading in whole}
    read = {(reading.target(), reading.face()) for reading in rest}
    while last[-1].target() not in targets:  # detail points, which are read in one face alone
        detail = last.pop()
        if (detail.target(), 3 - detail.face()) in read:
            return None
    faces = Counter((reading.target(), reading.face()) for reading in last)
    if max(faces.values()) > 1:
        return None
    is_even = all(faces[target, 1] == faces[target, 2] for target in targets)
    return [] if is_even and last[-1].target() == whole[-1].target() else last


def broken_set(readings: list[Block]) -> list[Block]:
    """The readings of a last set that was broken off, however many stand before the sets; none
    where all sets may be whole."""
    found = [(before, broken_after(readings, before)) for before in counts_before(readings)]
    divided = [broken for _, broken in found if broken is not None]
    if not all(divided) or not divided:
        return []
    numbers = {range_said(broken[0].number, broken[-1].number) for broken in divided}
    if len(numbers) > 1:
        raise Refused(
            f"the last set that was broken off may have {' or '.join(sorted(numbers))}: leave out "
            "by --blocks what the field book says"
        )
    # Sights that end with their first target alone may as well be a set and what closes it.
    counts = [before for before, broken in found if broken is not None]
    opens = any(may_open(readings[:before], readings[before].face()) for before in counts)
    return [] if not opens or whole_sets(divided[0], readings) else divided[0]


def broken_off(blocks: list[Block]) -> list[Block]:
    """The readings of last sets that were broken off, in a job without codes."""
    if any(block.code() == SET for block in blocks):
        raise Refused("the file has codes: leave the set out by --set")
    broken = [reading for group in readings_of_stations(blocks) for reading in broken_set(group)]
    if not broken:
        raise Refused("no last set was broken off, as far as the readings show it")
    return broken


def with_codes(blocks: list[Block]) -> list[Block]:
    """The blocks of the codes that open and end sets."""
    found = [block for block in blocks if block.code() in (STATION, SET, END)]
    if not found:
        raise Refused("no block has the code 10, 20 or 30")
    return found


def range_said(first: int, last: int) -> str:
    return f"block {first}" if first == last else f"blocks {first}-{last}"


def numbered(blocks: list[Block], first: int, last: int | None) -> list[Block]:
    """The blocks from one number to another, or to the last."""
    last = len(blocks) if last is LAST else last
    if not first <= last <= len(blocks):
        raise Refused(f"no {range_said(first, last)}: the file has {len(blocks)}")
    return blocks[first - 1 : last]


def left_out(blocks: list[Block], asked: Namespace) -> tuple[set[int], list[str]]:
    """The blocks that are left out, and what was asked for."""
    out: list[Block] = []
    said: list[str] = []
    for first, last in chain.from_iterable(asked.blocks or []):
        out += (found := numbered(blocks, first, last))
        said.append(range_said(found[0].number, found[-1].number))
    for station, number in asked.set or []:
        out += of_set(blocks, station, number)
        said.append(f"set {number} of {station}")
    if asked.closing:
        out += closing_sights(blocks)
        said.append("closing sights")
    if asked.without_codes:
        out += with_codes(blocks)
        said.append("codes 10, 20 and 30")
    if asked.broken_off:
        places = {block.place for block in out}
        out += broken_off([block for block in blocks if block.place not in places])
        said.append("last sets that were broken off")
    return {block.place for block in out}, said


# ---------------------------------------------------------------- what is changed


def renamed(
    blocks: list[Block], out: set[int], asked: Namespace
) -> tuple[dict[int, bytes], list[str]]:
    """The lines that get another name, by their places, and what was asked for."""
    lines: dict[int, bytes] = {}
    said: list[str] = []
    for numbers, name in asked.rename or []:
        for first, last in numbers:
            for block in numbered(blocks, first, last):
                if block.place in out:
                    raise Refused(f"block {block.number} is both left out and named {name}")
                lines[block.place] = block.renamed(name)
                said.append(f"block {block.number} named {name}")
    if asked.capitals:
        others = [block for block in blocks if block.place not in {*out, *lines}]
        lines |= {block.place: block.in_capitals() for block in others}
        said.append("names in capitals")
    return lines, said


def in_plain(blocks: list[Block], out: set[int], changed: dict[int, bytes]) -> dict[int, bytes]:
    """The lines that are changed, by their places, with those that aren't plain."""
    lines = {block.place: changed.get(block.place, block.line) for block in blocks}
    kept = [block for block in blocks if block.place not in out]
    plain = {b.place: Block(b.number, b.place, lines[b.place]).plain() for b in kept}
    return changed | {place: line for place, line in plain.items() if line != lines[place]}


class Codes(NamedTuple):
    """A station: its name, the blocks at which its sets begin, and the one that ends the last."""

    station: str
    firsts: list[int]
    last: int

    def lines(self, blocks: list[Block]) -> Iterator[tuple[Block, str, str | None]]:
        """The blocks before which codes are put, with these and what each has beside it."""
        begins = [reading_at(blocks, number) for number in self.firsts]
        reading_at(blocks, self.last)
        yield begins[0], STATION, self.station
        for number, block in enumerate(begins, 1):
            yield block, SET, str(number)
        for block in blocks[self.last : self.last + 1]:
            yield block, END, None


def reading_at(blocks: list[Block], number: int) -> Block:
    """The reading that is the block of a number."""
    [block] = numbered(blocks, number, number)
    if not block.is_reading():
        raise Refused(f"block {number} is no reading: no set begins or ends there")
    return block


def end_of(line: bytes) -> bytes:
    """The bytes that end a line."""
    return line[len(line.rstrip(b"\r\n")) :]


def put_in(
    lines: list[bytes], blocks: list[Block], out: set[int], asked: Namespace
) -> tuple[dict[int, list[bytes]], list[str]]:
    """The lines of codes that are put in, by the places before which they stand, and what was asked
    for."""
    put: dict[int, list[bytes]] = {}
    stations = sorted(asked.codes or [], key=lambda codes: codes.firsts)
    after = 0
    for codes in stations:
        numbers = [after, *codes.firsts, codes.last]
        if any(number >= then for number, then in zip(numbers, numbers[1:])):
            among = "or lie among those of another station"
            raise Refused(f"the blocks of {codes.station} don't ascend, {among}")
        after = codes.last
        for block in blocks[codes.firsts[0] : codes.last]:
            if block.sets_up() and block.place not in out:
                among = f"among the sets of {codes.station}"
                raise Refused(f"block {block.number} sets the instrument up, {among}")
        for block, code, information in codes.lines(blocks):
            end = end_of(lines[max(block.place - 1, 0)]) or b"\n"
            line = block.code_before(code, information, end)
            put.setdefault(block.place, []).append(line)
    return put, [f"codes of {codes.station}" for codes in stations]


class Changes(NamedTuple):
    """What the copy has otherwise, by the places of lines: those that are left out, as others are,
    and lines that are put in before."""

    out: set[int]
    changed: dict[int, bytes]
    put: dict[int, list[bytes]]

    def copied(self, lines: list[bytes]) -> Iterator[bytes]:
        """The lines of the copy."""
        for place, line in enumerate(lines):
            yield from self.put.get(place, [])
            if place not in self.out:
                yield self.changed.get(place, line)

    def groups(self) -> list[list[int]]:
        """The places in groups between which no line stays as it is."""
        groups: list[list[int]] = []
        before = None  # the place of the last line that is left out or changed
        for place in sorted({*self.out, *self.changed, *self.put}):
            groups += [[]] * (place - 1 != before)
            groups[-1].append(place)
            before = place if place in self.out or place in self.changed else None
        return groups

    def counted(self) -> str:
        """What is printed of how much it is."""
        said = [(len(self.out), "left out"), (len(self.changed), "changed")]
        said.append((sum(map(len, self.put.values())), "put in"))
        return ", ".join(f"{blocks_are(count)} {done}" for count, done in said if count)


def without_end(line: bytes) -> bytes:
    return line.rstrip(b"\n") + b"\n"


def log_of(asked: Namespace, blocks: list[Block], said: str, changes: Changes) -> Iterator[bytes]:
    """The log: what was asked for and why, and the lines as they were and are, as `diff` has them:
    of those that follow each other first all that were, then all that are."""
    copy, field = (shown(os.path.basename(path)) for path in (asked.copy, asked.field))
    yield f"{copy} is {field} {shown(said)}\n".encode()
    yield f"why: {asked.why}\n".encode()
    number = {block.place: block.number for block in blocks}
    lines = {block.place: block.line for block in blocks}
    out, changed, put = changes
    for group in changes.groups():
        for place in group:
            if place in out or place in changed:
                yield f"block {number[place]}:\n".encode() + b"< " + without_end(lines[place])
        for place in group:
            for line in put.get(place, []):
                yield f"before block {number[place]}:\n".encode() + b"> " + without_end(line)
            if changed.get(place):
                yield f"block {number[place]} in the copy:\n".encode()
                yield b"> " + without_end(changed[place])


# ---------------------------------------------------------------- the command line


def numbers(text: str) -> tuple[int, int | None]:
    if not (found := NUMBERS.fullmatch(text)):
        said = "is no number of a block, and none as 4-7 or 4-"
        raise argparse.ArgumentTypeError(f"{text!r} {said}")
    first = int(found[1])
    return first, int(found[3]) if found[3] else LAST if found[2] else first


def several_numbers(text: str) -> list[tuple[int, int | None]]:
    return [numbers(part) for part in text.split(",")]


def name(text: str) -> str:
    if not text or not text.isascii() or not text.isprintable() or text.startswith("0"):
        raise argparse.ArgumentTypeError("a name is of printable ASCII, with no zero before it")
    return text


def single(text: str) -> int:
    first, last = numbers(text)
    if first != last:
        raise argparse.ArgumentTypeError(f"{text!r} is no number of one block")
    return first


def renaming(values: list[str]) -> tuple[list[tuple[int, int | None]], str]:
    """Blocks and their name."""
    return several_numbers(values[0]), name(values[1])


def codes(values: list[str]) -> Codes:
    """A station's name, the blocks at which its sets begin, and the one that ends the last."""
    firsts = [single(part) for part in values[1].split(",")]
    return Codes(name(values[0]), firsts, single(values[2]))


class Several(argparse.Action):
    """Takes values that belong together, as the function that is its constant reads them."""

    def __call__(
        self, parser: ArgumentParser, asked: Namespace, values: Any, option: str | None = None
    ) -> None:
        try:
            value = self.const(values)
        except argparse.ArgumentTypeError as why:
            parser.error(f"argument {option}: {why}")
        setattr(asked, self.dest, [*(getattr(asked, self.dest) or []), value])


def reason(text: str) -> str:
    if not text.strip() or not text.isprintable():
        raise argparse.ArgumentTypeError("say why in one line")
    return text


def command_line() -> ArgumentParser:
    parser = ArgumentParser(
        description="Leaves blocks out of a copy of a field file, renames them or puts codes in, "
        "writes a log beside the copy, and prints the command that shows that nothing else was "
        "changed.",
        epilog="Example: prepare.py FIELD.gsi COPY.gsi --blocks 36 40-42 --why 'named wrongly'. "
        "Exit status: 0 the copy was written, 1 not (standard error says why), 2 a mistake on the "
        "command line.",
    )
    option = parser.add_argument
    option("field", metavar="FIELD", help="the field file, which stays as it is")
    option("copy", metavar="COPY", help="the copy, a new file; its log is COPY.log")
    option("--why", metavar="TEXT", type=reason, required=True, help="for the log")
    said = "leave out blocks by number, as 36 or 40-42, or 40- for all from 40 on"
    option("--blocks", metavar="N", type=several_numbers, nargs="+", help=said)
    said = "leave out a whole set that codes mark"
    option("--set", metavar=("STATION", "NUMBER"), nargs=2, action="append", help=said)
    option("--closing", action="store_true", help="leave out closing sights, with codes or without")
    said = "leave out a last set that was broken off, in a job without codes"
    option("--broken-off", action="store_true", help=said)
    said = "leave out the blocks of codes 10, 20 and 30, which may be your office's own"
    option("--without-codes", action="store_true", help=said)
    said = "give blocks, as 9 or 9,20, this name: of the target, station or set number"
    values = ("BLOCK", "NAME")
    option("--rename", metavar=values, nargs=2, action=Several, const=renaming, help=said)
    option("--capitals", action="store_true", help="write names of measurements in capitals")
    said = "put in the codes of a station whose sets begin at blocks, as 2,14,26; LAST ends them"
    values = ("STATION", "BLOCKS", "LAST")
    option("--codes", metavar=values, nargs=3, action=Several, const=codes, help=said)
    said = "write plain ASCII: no accents, tabs, byte order marks or bytes 1A at ends of lines"
    option("--plain", action="store_true", help=said)
    return parser


def new_file(path: str) -> BinaryIO:
    """A file that was not there, to be written."""
    try:
        return open(path, "xb")
    except FileExistsError:
        raise Refused(f"{path} is there already") from None
    except OSError as why:
        raise Refused(f"cannot write {path}: {why.strerror}") from None


def prepared(asked: Namespace) -> str:
    """Writes the copy and its log, and gives how many blocks are left out, changed and put in."""
    lines = lines_of(asked.field)
    blocks = blocks_of(lines)
    out, said_out = left_out(blocks, asked)
    changed, said_changed = renamed(blocks, out, asked)
    put, said_put = put_in(lines, blocks, out, asked)
    if asked.plain:
        changed = in_plain(blocks, out, changed)
        said_changed.append("plain ASCII")
    changed = {place: line for place, line in changed.items() if line != lines[place]}
    changes = Changes(out, changed, put)
    if not any(changes):
        raise Refused("nothing would be changed")
    said = [f"without: {', '.join(said_out)}"] * bool(said_out)
    said_with = said_changed + said_put
    said += [f"with: {', '.join(said_with)}"] * bool(said_with)
    if os.path.exists(asked.copy):
        raise Refused(f"{asked.copy} is there already")
    with new_file(f"{asked.copy}.log") as file:
        file.writelines(log_of(asked, blocks, "; ".join(said), changes))
    with new_file(asked.copy) as file:
        file.writelines(changes.copied(lines))
    return changes.counted()


def blocks_are(count: int) -> str:
    return "1 block is" if count == 1 else f"{count} blocks are"


def main() -> None:
    parser = command_line()
    asked = parser.parse_args()
    of_lines = [asked.blocks, asked.set, asked.closing, asked.broken_off, asked.without_codes]
    if not any([*of_lines, asked.rename, asked.capitals, asked.codes, asked.plain]):
        every = "--blocks, --set, --closing, --broken-off, --without-codes, --rename, --capitals, "
        parser.error(f"say what is left out or changed: {every}--codes or --plain")
    try:
        done = prepared(asked)
    except (Refused, OSError) as why:
        sys.exit(f"prepare.py: {shown(str(why))}")
    field, copy, log = map(quoted, (asked.field, asked.copy, f"{asked.copy}.log"))
    others = f"diff -a -d {field} {copy} | grep -a '^[<>]'"
    print(f"{done}; nothing else is changed if this prints nothing:")
    print(f"  {others} | diff -a - {log} | grep -a '^[<>] [<>]'")


if __name__ == "__main__":
    main()
