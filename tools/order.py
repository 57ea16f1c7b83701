"""In which order `make run` proves crates, and each by how many processes.

`python3 tools/order.py` prints the crates of the program in that order, and `python3 tools/order.py CRATE MOST`
how many processes share the proof of a crate, of the most that may.
"""

import sys
from functools import cache
from pathlib import Path

import prove

# What each proof begins with takes about as long as to prove so many lines of code.
BEGINNING = 200


def lines_of(crate: Path) -> int:
    """About how much there is to prove of a crate, in lines of its code."""
    return BEGINNING + sum(len(file.read_text().splitlines()) for file in (crate / "src").rglob("*.rt"))


class Order:
    """The crates of the program, each with those that it stands on, however far, and with its lines."""

    def __init__(self, root: Path):
        named = prove.libraries(root)
        program = next(name for name in named if prove.is_program(root / "crates" / name))
        self.under = {name: prove.below(name, named) for name in [*prove.below(program, named), program]}
        self.lines = {name: lines_of(root / "crates" / name) for name in self.under}

    def above(self, crate: str) -> set[str]:
        """The crates that stand on a crate, however far."""
        return {name for name, under in self.under.items() if crate in under}

    @cache
    def longest(self, crate: str) -> int:
        """The lines of the longest chain that begins with a crate, each crate on the one before."""
        return self.lines[crate] + max(map(self.longest, self.above(crate)), default=0)

    def crates(self) -> list[str]:
        """The crates, those first with which the longest chains begin."""
        return sorted(self.under, key=lambda name: (-self.longest(name), name))

    def processes(self, crate: str, most: int) -> int:
        """How many processes share a proof, of the most that may. One takes less processor time in all;
        so there are more only where less than three tenths of the lines can be proved beside it, and
        two of a crate that has more than a tenth of all lines, for which the longest chain waits. What
        the program isn't made of, the calls of the page, is proved when all else is."""
        if crate not in self.under:
            return most
        total = sum(self.lines.values())
        apart = {crate, *self.under[crate], *self.above(crate)}
        beside = sum(lines for name, lines in self.lines.items() if name not in apart)
        if 10 * beside < 3 * total:
            return most
        return min(2, most) if 10 * self.lines[crate] > total else 1


def main() -> None:
    order = Order(prove.ROOT)
    match sys.argv[1:]:
        case [crate, most]:
            print(order.processes(crate, int(most)))
        case _:
            print(*order.crates())


if __name__ == "__main__":
    main()
