"""Writes into the pages what the commands that they show print now: `python3 tools/shown.py`.

Nothing changes where a page shows just that. Look at the change before you keep it.
"""

import re
import sys
from pathlib import Path
from typing import Iterator

ROOT = Path(__file__).resolve().parents[1]
sys.path.insert(0, str(ROOT / "tests" / "support"))

from pages import BLOCK, Step, checked, steps_of


def mended(text: str, answers: Iterator[tuple[Step, str]]) -> str:
    """A page with what its commands print now."""

    def block(found: re.Match[str]) -> str:
        mended = [
            f"$ {step.command}\n{step.printed if step.fits(printed) else printed}"
            for step, (_, printed) in zip(steps_of(found[1]), answers)
        ]
        return f"```console\n{''.join(mended)}```"

    return BLOCK.sub(block, text)


if __name__ == "__main__":
    for page, answers in checked().items():
        path = ROOT / page
        path.write_text(mended(path.read_text(), iter(answers)))
