"""Makes the picture of the page in a browser anew: `python3 tools/guide_picture.py`.

The page has to be made before, and a Chromium has to be there. Look at the picture before you keep
it.
"""

import sys
from pathlib import Path

ROOT = Path(__file__).resolve().parents[1]
sys.path.insert(0, str(ROOT / "tests" / "page"))

import browser

PAGE = ROOT / "build" / "station_check.html"
EXAMPLE = ROOT / "examples" / "station_p7"

# The picture, and what it ends above: it has the answer with the first tables, so that a screen has
# room for it.
PICTURE, BELOW = ROOT / "docs" / "answer.png", ".across"

WIDTH, HEIGHT = 1100, 1400


def main() -> None:
    page = browser.Page(PAGE, WIDTH, HEIGHT)
    page.give(EXAMPLE.with_suffix(".gsi"), EXAMPLE.with_suffix(".csv"))
    page.picture(PICTURE, BELOW)
    print(f"{PICTURE}: {PICTURE.stat().st_size} bytes")
    page.close()


if __name__ == "__main__":
    main()
