"""What the drivers of browsers have in common: a page that is open, as WebDriver has it."""

import base64
import json
import time
from pathlib import Path
from typing import Any, Callable, TypeVar

T = TypeVar("T")

# How long a browser may take for its start and for an answer, in seconds.
PATIENCE = 60

# What is sent for the key that leaves a field.
TAB_KEY = "\ue004"


def until(found: Callable[[], T]) -> T:
    """Waits until something is found, and answers it."""
    end = time.monotonic() + PATIENCE
    while not (value := found()):
        if time.monotonic() > end:
            raise TimeoutError(f"not found in {PATIENCE} s")
        time.sleep(0.05)
    return value


class Driven:
    """A page that is open in a browser; `call` is the browser's own."""

    version: str

    def call(self, name: str, **params: Any) -> Any:
        """What the browser answers to a command of WebDriver."""
        raise NotImplementedError

    def close(self) -> None:
        """Ends the browser."""
        raise NotImplementedError

    def element(self, selector: str) -> str:
        """By what its protocol names the first element that fits."""
        found = self.call("FindElement", using="css selector", value=selector)
        return next(iter(found.values()))

    def give(self, path: Path) -> None:
        """Chooses a file, beside those that are there."""
        self.js("document.querySelector('#choose').value = ''")
        self.call("ElementSendKeys", id=self.element("#choose"), text=str(path))

    def drop(self, *paths: Path) -> None:
        """Drops files onto the window: its protocol has no drop, so the page is told of one."""
        files = [[path.name, base64.b64encode(path.read_bytes()).decode()] for path in paths]
        self.js(
            "const data = new DataTransfer();"
            f"for (const [name, text] of {json.dumps(files)})"
            "  data.items.add("
            "    new File([Uint8Array.from(atob(text), letter => letter.charCodeAt(0))], name));"
            "const drop = kind => document.body.dispatchEvent("
            "  new DragEvent(kind, { bubbles: true, cancelable: true, dataTransfer: data }));"
            "['dragenter', 'dragover', 'drop'].forEach(drop);"
        )

    def press(self, selector: str) -> None:
        """Presses what fits."""
        self.js(f"document.querySelector({json.dumps(selector)}).click()")

    def fill(self, name: str, value: str | int) -> None:
        """Types a number into a field, and leaves it."""
        field = self.element(f"#{name}")
        self.call("ElementClear", id=field)
        self.call("ElementSendKeys", id=field, text=f"{value}{TAB_KEY}")

    def text(self, selector: str) -> Any:
        """The text of the first element that fits; none where there is none."""
        return self.js(f"return document.querySelector({json.dumps(selector)})?.textContent")

    def wait_text(self, selector: str, expected: str) -> Any:
        """Waits until this stands in an element; answers what stands there at the end."""
        try:
            until(lambda: self.text(selector) == expected)
        except TimeoutError:
            pass
        return self.text(selector)

    def js(self, code: str) -> Any:
        """What a script answers."""
        return self.call("ExecuteScript", script=code, args=[])
