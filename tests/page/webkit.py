"""Drives a WebKit by WebKitWebDriver, in a window that nobody sees, as a user at the page does."""

import json
import os
import shutil
import socket
import subprocess
import tempfile
import urllib.error
import urllib.request
from pathlib import Path
from typing import Any

from driven import PATIENCE, Driven, until

DRIVER, SCREEN = "WebKitWebDriver", "Xvfb"

# Where Debian and others put the small browser that the driver starts.
BROWSERS = ["libexec", "lib"]
BROWSER = "webkit2gtk-4.*/MiniBrowser"

# The commands of its protocol: each with its method, and its place below the session.
COMMANDS = {
    "Navigate": ("POST", "url"),
    "FindElement": ("POST", "element"),
    "ElementSendKeys": ("POST", "element/{id}/value"),
    "ElementClear": ("POST", "element/{id}/clear"),
    "ExecuteScript": ("POST", "execute/sync"),
}


def webkit() -> str | None:
    """The command of a WebKit that is here, beside what drives it; none where there is none."""
    if not (shutil.which(DRIVER) and shutil.which(SCREEN)):
        return None
    found = (one for name in BROWSERS for one in Path("/usr", name).glob(f"**/{BROWSER}"))
    return next(map(str, found), None)


def free_port() -> int:
    """A port that is free."""
    with socket.socket() as one:
        one.bind(("127.0.0.1", 0))
        return int(one.getsockname()[1])


class Page(Driven):
    """A page that is open in a browser of its own."""

    def __init__(self, path: Path) -> None:
        self.folder = tempfile.TemporaryDirectory(prefix="page-", ignore_cleanup_errors=True)
        self.session, self.address = "", f"http://127.0.0.1:{(port := free_port())}/session"
        reads, writes = os.pipe()
        null, home = subprocess.DEVNULL, self.folder.name
        words = [SCREEN, "-displayfd", str(writes), "-screen", "0", "1200x1600x24", "-nolisten", "tcp"]
        self.screen = subprocess.Popen(words, pass_fds=[writes], stdout=null, stderr=null)
        os.close(writes)
        with os.fdopen(reads) as told:
            display = f":{told.readline().strip()}"
        room = {**os.environ, "DISPLAY": display, "HOME": home, "XDG_RUNTIME_DIR": home}
        room["LANGUAGE"] = room["LC_ALL"] = "en_US.UTF-8"
        words = [DRIVER, f"--port={port}", "--host=127.0.0.1"]
        self.run = subprocess.Popen(words, env=room, stdout=null, stderr=null)
        until(self.is_heard)
        options = {"binary": webkit(), "args": ["--automation"]}
        wanted = {"alwaysMatch": {"webkitgtk:browserOptions": options}}
        begun = self.sent("POST", "", {"capabilities": wanted})
        self.session, self.version = f"/{begun['sessionId']}", begun["capabilities"]["browserVersion"]
        self.call("Navigate", url=path.as_uri())

    def is_heard(self) -> bool:
        """Whether the driver answers yet: any answer is one."""
        try:
            self.sent("GET", "", None)
        except (urllib.error.URLError, OSError, RuntimeError) as error:
            return isinstance(error, RuntimeError)
        return True

    def close(self) -> None:
        """Ends the browser."""
        self.sent("DELETE", "", None)
        for run in (self.run, self.screen):
            run.terminate()
            run.wait(PATIENCE)
        self.folder.cleanup()

    def sent(self, method: str, place: str, params: Any) -> Any:
        """What the driver answers to a message."""
        data = None if params is None else json.dumps(params).encode()
        asked = urllib.request.Request(self.address + self.session + place, data, method=method)
        try:
            with urllib.request.urlopen(asked, timeout=PATIENCE) as answer:
                return json.load(answer)["value"]
        except urllib.error.HTTPError as error:
            raise RuntimeError(error.read().decode()) from error

    def call(self, name: str, **params: Any) -> Any:
        """What the browser answers to a command of WebDriver."""
        method, place = COMMANDS[name]
        return self.sent(method, f"/{place.format(**params)}", params)
