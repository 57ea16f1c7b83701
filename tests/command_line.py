"""Runs the tests of tests/cli over the built program, and those of tests/page, as many side by side as
there are processors.

`python3 tests/command_line.py [WORD..]` runs those whose names have one of the words. With SWEEP in
the environment the sweeps are run whole. Each test is reported when it has ended; what failed and
what was skipped is said at the end.
"""

import multiprocessing
import os
import sys
import time
import unittest
from concurrent.futures import ProcessPoolExecutor, as_completed
from pathlib import Path
from typing import Collection, Iterator, NamedTuple

HERE = Path(__file__).resolve().parent

FOLDERS = [str(HERE / name) for name in ("cli", "page")]

# What the tests share.
SUPPORT = str(HERE / "support")

# Words of the tests that take longest: they begin first.
LONGEST = [
    "test_calls",
    "test_plain",
    "test_retarget",
    "test_want_of_memory_is_a_refusal",
    "test_generated",
    "test_the_model_answers",
    "test_held_line",
    "test_folder",
    "test_failing_ends",
    "test_sizes",
    "test_refused_memory",
    "test_cuts",
]


class Outcome(NamedTuple):
    """What came of a test."""

    name: str
    seconds: float
    failures: list[str]  # what each says
    skipped: list[str]  # why

    def line(self) -> str:
        """Its line, as it is told when it has ended."""
        what = "FAILED" if self.failures else "skipped" if self.skipped else "ok"
        return f"{self.seconds:6.1f} s  {self.name}: {what}"


class Counts(NamedTuple):
    passed: int
    failed: int
    skipped: list[str]  # why, of how many tests, and which


def load() -> Iterator[unittest.TestCase]:
    """All tests, one by one."""
    sys.path[:0] = [*FOLDERS, SUPPORT]
    suites: list[unittest.TestSuite | unittest.TestCase]
    suites = [unittest.TestLoader().discover(folder) for folder in FOLDERS]
    while suites:
        suite = suites.pop()
        if isinstance(suite, unittest.TestSuite):
            suites += suite
        else:
            yield suite


def outcome_of(name: str) -> Outcome:
    """Runs the test of a name."""
    result, start = unittest.TestResult(), time.monotonic()
    if FOLDERS[0] not in sys.path:
        sys.path[:0] = [*FOLDERS, SUPPORT]
    unittest.defaultTestLoader.loadTestsFromName(name).run(result)
    failures = [said for _, said in result.failures + result.errors]
    failures += ["it passes, and is marked as failing"] * len(result.unexpectedSuccesses)
    skipped = [why for _, why in result.skipped]
    return Outcome(name, time.monotonic() - start, failures, skipped)


def place(name: str) -> tuple[int, str]:
    """Where a test stands in the order in which they begin."""
    return next((at for at, word in enumerate(LONGEST) if word in name), len(LONGEST)), name


def outcomes(names: list[str]) -> Iterator[Outcome]:
    """Runs tests side by side, and gives what came of each when it has ended."""
    processes = len(os.sched_getaffinity(0))
    anew = multiprocessing.get_context("spawn")
    with ProcessPoolExecutor(processes, mp_context=anew) as pool:
        tests = {pool.submit(outcome_of, name): name for name in sorted(names, key=place)}
        for test in as_completed(tests):
            if why := test.exception():
                yield Outcome(tests[test], 0, [f"it could not be run: {why}"], [])
            else:
                yield test.result()


def reasons(ended: list[Outcome]) -> list[str]:
    """Why tests were skipped, a line for each reason."""
    of_reason: dict[str, list[str]] = {}
    for outcome in ended:
        for why in outcome.skipped[:1]:
            of_reason.setdefault(why, []).append(outcome.name.rpartition(".")[2])
    return [f"{why}: {len(names)} tests: {', '.join(names)}" for why, names in of_reason.items()]


def run(words: Collection[str] = ()) -> Counts:
    """Runs the tests whose names have one of the words, or all, and counts them."""
    names = [test.id() for test in load()]
    chosen = [name for name in names if not words or any(word in name for word in words)]
    start, ended = time.monotonic(), list[Outcome]()
    print(f"tests of the command line: {len(chosen)}", flush=True)
    for outcome in outcomes(chosen):
        ended.append(outcome)
        print(f"{len(ended):4} of {len(chosen)}  {outcome.line()}", flush=True)
    failed = [outcome for outcome in ended if outcome.failures]
    for outcome in failed:
        for said in outcome.failures:
            print(f"\n{'=' * 70}\nFAILED: {outcome.name}\n{said}", flush=True)
    print(f"tests of the command line took {time.monotonic() - start:.0f} s", flush=True)
    passed = sum(1 for outcome in ended if not outcome.failures and not outcome.skipped)
    return Counts(passed, len(failed), reasons(ended))


def main() -> int:
    counts = run(sys.argv[1:])
    for what in counts.skipped:
        print(f"SKIPPED: {what}")
    print(f"{counts.passed} passed, {counts.failed} failed", flush=True)
    return 0 if counts.failed == 0 and counts.passed > 0 else 1


if __name__ == "__main__":
    sys.exit(main())
