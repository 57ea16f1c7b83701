"""The kinds of answers: an answer without its numbers and places, and all that are met."""

import re

ANGLE_FAULTS = ["Unit", "InputMode", "Sign", "Digits", "Range"]

BLOCK_FAULTS = [
    *["LineTooLong", "Byte n", "Word n", "FirstWord"],
    *["EmptySet", "OneFace", "WordTwice 42", "StationName"],
    *["SetOutside", "SetNumber", "StationTwice", "SetTwice"],
    *["WordTwice 21", "WordTwice 22", "NoZenith"],
    *[f"{word} {fault}" for word in ["Hz", "Zenith"] for fault in ANGLE_FAULTS],
    *["FaceUnclear", "FaceTwice", "TwoC", "TwoI"],
]

ROW_FAULTS = ["Fields", "Kind", "Version", "NotEmpty", "Name", "Number", "Range", "Unfinished"]

KERNEL_FAULTS = [
    *["TargetRow n", "SetRow n", "ObsRow n", "Datum"],
    *["TargetSum n", "SetSum n", "NotConnected", "Residual n"],
]

TABLE_ROW_FAULTS = ["Fields", "Name", "Number", "Range", "Unknown", "Twice"]

# Of blocks and of sets of a file into which codes are to be put.
MARK_FAULTS = [
    *["TwoLines", "HasCodes", "HasSetUp", "NoSetUp", "NameTooLong", "Empty", "NoSets", "NoSuchStation"],
    *["ReadTwice"],
    *["FaceMissing", "OneTarget", "Order", "EndsElsewhere", "OneSet", "FirstFace", "MayBeShifted"],
    *["PairAfter", "OtherTargets", "SightsItself", "StationTwice", "ByTargets", "SetCount", "TargetCount"],
]

# Of changes of lines.
CHANGE_FAULTS = ["LineOrder", "NoSuchLine", "NameTooLong", "ZeroBefore", "NoPoint"]

WRITTEN = ["accepted", "agrees", "written", "nothing to write"]

# The refusals that files of any size can have.
REFUSALS = [
    *[f"block n: {fault}" for fault in BLOCK_FAULTS],
    *[f"block n: mark: {fault}" for fault in MARK_FAULTS],
    *[f"block n: change: {fault}" for fault in CHANGE_FAULTS],
    *[f"sheet row n: {fault}" for fault in ROW_FAULTS],
    *[f"kernel: {fault}" for fault in KERNEL_FAULTS],
    *["no station", "means: Incomplete"],
    *[f"table row n: {fault}" for fault in TABLE_ROW_FAULTS],
    *["table: Columns n n", "table: Missing n", "adjust: NotConnected", "adjust: Residual n"],
    "compare: Apart n mgon, limit n mgon",
]

# Those of files, sheets and tables with too much of something, of titles, and of reads that fail.
OF_COUNTS = [
    *["block n: TooManyTargets", "block n: TooManySets", "block n: TooManyStations"],
    *["block n: mark: TooManyTargets", "block n: mark: TooManySets"],
    *["block n: mark: TooManyStations", "sheet row n: TooMany"],
]
OF_BYTES = ["block n: FileTooLong", "field file: FileTooLong", "sheet: TooLong", "table: TooLong"]
OF_TITLES = ["table: NoTitle n", "table: TwiceTitled n", "table: SameTitle"]
OF_READS = ["block n: Read", "field file: Read", "sheet: Read", "table: Read"]

# Those that no run is known to have.
NEVER_MET = ["adjust: NotFound"]


def refusal_in(stderr: bytes) -> str:
    """The line of a refusal; before it may stand what is told of stations or of a table, after it
    what its numbers stand for."""
    lines = stderr.decode().splitlines()
    return next((line for line in lines if line.startswith("refused: ")), lines[-1])


def without_hint(answer: tuple[int, bytes, bytes]) -> tuple[int, bytes, bytes]:
    """An answer without what is told after the line of a refusal: the library and the page, which
    name targets and sets in their own words, leave it out."""
    status, stdout, stderr = answer
    lines = stderr.splitlines(keepends=True)
    refusals = [place for place, line in enumerate(lines) if line.startswith(b"refused: ")]
    return status, stdout, b"".join(lines[: refusals[0] + 1] if refusals else lines)


def kind_of(answer: tuple[int, bytes, bytes]) -> str:
    """What was printed, or the reason of a refusal, with `n` for each number but those of words."""
    status, stdout, stderr = answer
    if status == 0:
        verdict = stdout.split(b" ")[0].decode()
        printed = "written" if stdout else "nothing to write"
        return verdict if verdict in ("accepted", "agrees") else printed
    reason = refusal_in(stderr).removeprefix("refused: ")
    reason = re.sub(r"^(block|sheet row|table row) \d+", r"\1 n", reason)
    reason = re.sub(r"\d+\.\d{3} mgon", "n mgon", reason)
    return reason if "WordTwice" in reason else re.sub(r" \d+(?= \d+$|$)", " n", reason)
