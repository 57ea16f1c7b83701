"""Drives a headless Chromium over its debugging pipe, as a user at the page does."""

import base64
import fcntl
import json
import os
import shutil
import subprocess
import tempfile
import time
from contextlib import contextmanager
from pathlib import Path
from typing import Any, Iterator, NamedTuple

NAMES = ["chromium", "chromium-browser", "google-chrome", "chrome"]
FLAGS = [
    "--headless=new", "--no-sandbox", "--disable-gpu", "--disable-dev-shm-usage",
    "--accept-lang=en",
]

# How long the browser may take for an answer, in seconds.
PATIENCE = 60

# The ends of the pipe in the browser: what it reads, and what it writes.
READS, WRITES = 3, 4


def browser() -> str | None:
    """The command of a browser that is here; none where there is none."""
    return next(filter(None, map(shutil.which, NAMES)), None)


class Part(NamedTuple):
    """What a screen reader is told of a part of a page."""

    role: str
    name: str
    text: str  # what stands right in it
    states: dict[str, Any]


class Page:
    """A page that is open in a browser of its own; one that doesn't check has nothing to settle."""

    def __init__(
        self,
        path: Path,
        width: int = 1000,
        height: int = 1400,
        scheme: str = "light",
        checks: bool = True,
    ) -> None:
        self.folder = tempfile.TemporaryDirectory(prefix="page-", ignore_cleanup_errors=True)
        self.downloads = os.path.join(self.folder.name, "downloads")
        self.count, self.events, self.rest = 0, list[dict[str, Any]](), b""
        self.session: str | None = None
        self.checks = checks
        self.start()
        target = self.call("Target.createTarget", url="about:blank")["targetId"]
        attached = self.call("Target.attachToTarget", targetId=target, flatten=True)
        self.session = attached["sessionId"]
        for domain in ("Page", "DOM", "Runtime", "Log", "Network", "Accessibility"):
            self.call(f"{domain}.enable")
        screen = {"width": width, "height": height, "deviceScaleFactor": 1, "mobile": False}
        self.call("Emulation.setDeviceMetricsOverride", **screen)
        features = [{"name": "prefers-color-scheme", "value": scheme}]
        self.call("Emulation.setEmulatedMedia", features=features)
        self.call("Page.navigate", url=path.as_uri())
        self.wait("document.readyState === 'complete'")
        self.settle()

    def start(self) -> None:
        """Starts the browser, with a pipe to it and one back."""
        (asked, self.asks), (self.hears, told) = os.pipe(), os.pipe()
        words = [browser() or NAMES[0], *FLAGS, "--remote-debugging-pipe"]
        words.append(f"--user-data-dir={self.folder.name}")

        def place() -> None:
            """Puts the two ends where the browser has them, out of each other's way first."""
            ends = [fcntl.fcntl(end, fcntl.F_DUPFD, WRITES + 1) for end in (asked, told)]
            for end, at in zip(ends, (READS, WRITES)):
                os.dup2(end, at)

        null, ends = subprocess.DEVNULL, [READS, WRITES]
        self.run = subprocess.Popen(
            words, pass_fds=ends, preexec_fn=place, stdout=null, stderr=null
        )
        os.close(asked)
        os.close(told)

    def close(self) -> None:
        """Ends the browser."""
        self.run.terminate()
        self.run.wait(PATIENCE)
        os.close(self.asks)
        os.close(self.hears)
        self.folder.cleanup()

    def call(self, method: str, **params: Any) -> dict[str, Any]:
        """What the browser answers to a call; events on the way are kept."""
        self.count += 1
        said: dict[str, Any] = {"id": self.count, "method": method, "params": params}
        if self.session:
            said["sessionId"] = self.session
        data = json.dumps(said).encode() + b"\0"
        while data:
            data = data[os.write(self.asks, data) :]
        while True:
            heard = self.hear()
            if heard.get("id") == self.count:
                if "error" in heard:
                    raise RuntimeError(heard["error"])
                return heard["result"]
            self.events.append(heard)

    def hear(self) -> dict[str, Any]:
        """What the browser says next."""
        while b"\0" not in self.rest:
            data = os.read(self.hears, 1 << 20)
            if not data:
                raise RuntimeError("the browser has ended")
            self.rest += data
        one, _, self.rest = self.rest.partition(b"\0")
        return json.loads(one)

    def js(self, code: str) -> Any:
        """The value of an expression in the page."""
        how = {"awaitPromise": True, "returnByValue": True}
        found = self.call("Runtime.evaluate", expression=code, **how)
        if "exceptionDetails" in found:
            raise RuntimeError(found["exceptionDetails"])
        return found["result"].get("value")

    def wait(self, code: str) -> Any:
        """Waits until an expression is true, and answers it."""
        end = time.monotonic() + PATIENCE
        while not (found := self.js(code)):
            if time.monotonic() > end:
                raise TimeoutError(f"never true: {code}")
            time.sleep(0.02)
        return found

    def give(self, *paths: Path, button: str = "choose") -> None:
        """Chooses files by a button; the page has answered when this returns."""
        self.js(f"$('{button}').onclick()")
        root = self.call("DOM.getDocument")["root"]["nodeId"]
        field = self.call("DOM.querySelector", nodeId=root, selector=f"#{button}")["nodeId"]
        with self.answered():
            self.call("DOM.setFileInputFiles", nodeId=field, files=[str(path) for path in paths])

    def drop(self, *paths: Path) -> None:
        """Drops files onto the middle of the window."""
        where = self.js("[innerWidth / 2, innerHeight / 2]")
        data = {"items": [], "files": [str(path) for path in paths], "dragOperationsMask": 1}
        with self.answered():
            for kind in ("dragEnter", "dragOver", "drop"):
                self.call("Input.dispatchDragEvent", type=kind, x=where[0], y=where[1], data=data)

    def fill(self, name: str, value: str | int) -> None:
        """Types a number into a field."""
        with self.answered():
            self.js(f"$('{name}').value = {json.dumps(str(value))}; $('{name}').onchange()")

    def empty(self) -> None:
        """Takes all files away."""
        with self.answered():
            self.js("$('remove-all').onclick()")

    @contextmanager
    def answered(self) -> Iterator[None]:
        """What is done in it changes what is asked: waits until that is answered."""
        before = self.js("now.turn")
        yield
        self.wait(f"now.turn > {before}")
        self.settle()

    def settle(self) -> None:
        """Waits until the page has done all that was asked of it, opened results included."""
        if self.checks:
            self.wait("$('main').getAttribute('aria-busy') === 'false' && "
                      "document.querySelector('details.results[open]:not(.filled)') === null")

    def text(self, selector: str) -> Any:
        """The text of the first element that fits; none where there is none."""
        return self.js(f"document.querySelector({json.dumps(selector)})?.textContent")

    def texts(self, selector: str) -> list[str]:
        """The texts of all elements that fit."""
        all_of = f"[...document.querySelectorAll({json.dumps(selector)})]"
        texts: list[str] = self.js(f"{all_of}.map(e => e.textContent)")
        return texts

    def parts(self) -> Iterator[Part]:
        """The parts of the page of which a screen reader is told."""
        nodes = self.call("Accessibility.getFullAXTree")["nodes"]
        name_of = {node["nodeId"]: node.get("name", {}).get("value", "") for node in nodes}
        for node in nodes:
            if not node["ignored"]:
                text = "".join(name_of[child] for child in node["childIds"])
                states = {one["name"]: one["value"].get("value") for one in node["properties"]}
                yield Part(node["role"]["value"], name_of[node["nodeId"]], text, states)

    def press(self, text: str) -> None:
        """Presses the button with this text."""
        has_text = f"b => b.textContent === {json.dumps(text)}"
        self.js(f"[...document.querySelectorAll('button')].find({has_text}).click()")
        self.settle()

    def key(self, name: str, code: int, text: str = "") -> None:
        """Presses a key, which has this number, and may write a text."""
        pressed = {"key": name, "code": name, "text": text, "windowsVirtualKeyCode": code}
        for kind in ("keyDown", "keyUp"):
            self.call("Input.dispatchKeyEvent", type=kind, **pressed)

    def saved(self, text: str, name: str) -> bytes:
        """The bytes of the file of this name that the button with this text saves."""
        os.makedirs(self.downloads, exist_ok=True)
        self.call("Page.setDownloadBehavior", behavior="allow", downloadPath=self.downloads)
        self.press(text)
        path, end = os.path.join(self.downloads, name), time.monotonic() + PATIENCE
        # (an empty file holds the place of one that is not yet whole)
        while not os.path.exists(path) or os.path.getsize(path) == 0:
            if time.monotonic() > end:
                raise TimeoutError(f"not saved: {name}")
            time.sleep(0.02)
        with open(path, "rb") as file:
            return file.read()

    def requests(self) -> list[str]:
        """The addresses that were asked for."""
        self.js("0")
        sent = [one for one in self.events if one.get("method") == "Network.requestWillBeSent"]
        return [one["params"]["request"]["url"] for one in sent]

    def complaints(self) -> list[Any]:
        """What went wrong in the page, as its console shows it."""
        self.js("0")
        told = {
            "Runtime.exceptionThrown": "exceptionDetails",
            "Runtime.consoleAPICalled": "args",
            "Log.entryAdded": "entry",
        }
        events = [one for one in self.events if one.get("method") in told]
        return [one["params"][told[one["method"]]] for one in events]

    def printed(self) -> bytes:
        """The bytes of the page as it is printed, in PDF."""
        data = self.call("Page.printToPDF", preferCSSPageSize=True)["data"]
        return base64.b64decode(data)

    def picture(self, path: Path, above: str | None = None) -> None:
        """Puts a picture of the page, as far as the top of an element, at a path."""
        below = "document.documentElement.scrollHeight"
        if above:
            below = f"document.querySelector({json.dumps(above)}).getBoundingClientRect().top"
        size = {"width": self.js("innerWidth"), "height": self.js(below)}
        clip = {"x": 0, "y": 0, "scale": 1, **size}
        data = self.call("Page.captureScreenshot", captureBeyondViewport=True, clip=clip)["data"]
        path.write_bytes(base64.b64decode(data))
