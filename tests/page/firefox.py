"""Drives a headless Firefox by its own protocol, Marionette, as a user at the page does."""

import base64
import json
import os
import shutil
import socket
import subprocess
import tempfile
from pathlib import Path
from typing import Any

from driven import PATIENCE, Driven, until

NAMES = ["firefox-esr", "firefox"]

# The first version that runs the page.
FIRST = 113

# It picks a port that is free, and writes it into its profile.
SETTINGS = 'user_pref("marionette.port", 0);\n'
PORT = "MarionetteActivePort"

# Paper and its margin, in centimetres.
A4, MARGIN = {"width": 21.0, "height": 29.7}, 1.4


def firefox() -> str | None:
    """The command of a Firefox that is here; none where there is none."""
    return next(filter(None, map(shutil.which, NAMES)), None)


class Page(Driven):
    """A page that is open in a browser of its own."""

    def __init__(self, path: Path) -> None:
        self.folder = tempfile.TemporaryDirectory(prefix="page-", ignore_cleanup_errors=True)
        self.count, self.rest = 0, b""
        profile = Path(self.folder.name)
        (profile / "user.js").write_text(SETTINGS)
        words = [firefox() or NAMES[0], "--headless", "--no-remote", "--marionette"]
        words += ["--profile", str(profile)]
        home, null = {**os.environ, "HOME": str(profile)}, subprocess.DEVNULL
        self.run = subprocess.Popen(words, env=home, stdout=null, stderr=null)
        port = profile / PORT
        until(lambda: port.exists() and port.read_text())
        self.socket = socket.create_connection(("127.0.0.1", int(port.read_text())), PATIENCE)
        self.hear()
        self.version = self.call("NewSession")["capabilities"]["browserVersion"]
        self.call("Navigate", url=path.as_uri())

    def close(self) -> None:
        """Ends the browser."""
        self.socket.close()
        self.run.terminate()
        self.run.wait(PATIENCE)
        self.folder.cleanup()

    def hear(self) -> Any:
        """A message: its length in digits, a colon, and so many bytes."""
        while b":" not in self.rest:
            self.take()
        length, _, self.rest = self.rest.partition(b":")
        while len(self.rest) < int(length):
            self.take()
        said, self.rest = self.rest[: int(length)], self.rest[int(length) :]
        return json.loads(said)

    def take(self) -> None:
        """Takes in what has come meanwhile."""
        data = self.socket.recv(1 << 16)
        if not data:
            raise RuntimeError("the browser has ended")
        self.rest += data

    def call(self, name: str, **params: Any) -> Any:
        """What the browser answers to a call."""
        self.count += 1
        data = json.dumps([0, self.count, f"WebDriver:{name}", params]).encode()
        self.socket.sendall(f"{len(data)}:".encode() + data)
        _, _, error, value = self.hear()
        if error:
            raise RuntimeError(error["message"])
        return value["value"] if isinstance(value, dict) and value.keys() == {"value"} else value

    def printed(self) -> bytes:
        """The bytes of the page as it is printed on A4, in PDF."""
        margin = dict.fromkeys(("top", "right", "bottom", "left"), MARGIN)
        printed = self.call("Print", page=A4, margin=margin)
        return base64.b64decode(printed)
