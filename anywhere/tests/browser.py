"""Debian's chromium without a window, over the DevTools protocol, whose messages go through two pipes."""

from __future__ import annotations

import base64
import json
import os
import shutil
import subprocess
import tempfile
import time
from typing import Any, Callable, Self

NUL = b"\0"
ANSWER_SECONDS = 60


class BrowserFault(Exception):
    """What the browser refuses, or what didn't come in time."""


class Browser:
    """A browser with one page."""

    def __init__(self, width: int = 1100, height: int = 1400) -> None:
        self.home = tempfile.mkdtemp(prefix="predator-chromium-")
        self.buffer, self.number, self.session = b"", 0, ""
        self.events: list[dict[str, Any]] = []
        take_in, give_in = os.pipe()
        take_out, give_out = os.pipe()
        command = shutil.which("chromium") or "chromium"
        # (the browser has its commands at descriptor 3 and its answers at 4)
        shell = 'exec 3<&"$1" 4>&"$2"; shift 2; exec "$@"'
        words = ["--headless=new", "--no-sandbox", "--disable-gpu", "--remote-debugging-pipe"]
        words += [f"--user-data-dir={self.home}", f"--window-size={width},{height}", "about:blank"]
        self.process = subprocess.Popen(
            ["bash", "-c", shell, "bash", str(take_in), str(give_out), command, *words],
            pass_fds=(take_in, give_out),
            stdin=subprocess.DEVNULL,
            stdout=subprocess.DEVNULL,
            stderr=subprocess.DEVNULL,
        )
        os.close(take_in)
        os.close(give_out)
        self.give, self.take = give_in, take_out

    def __enter__(self) -> Self:
        target = self.send("Target.createTarget", url="about:blank")["targetId"]
        self.session = self.send("Target.attachToTarget", targetId=target, flatten=True)[
            "sessionId"
        ]
        for domain in ("Page", "Runtime", "Log", "Network"):
            self.send(f"{domain}.enable")
        return self

    def __exit__(self, *_: object) -> None:
        self.process.kill()
        self.process.wait()
        os.close(self.give)
        os.close(self.take)
        shutil.rmtree(self.home, ignore_errors=True)

    def read_message(self) -> dict[str, Any]:
        while NUL not in self.buffer:
            piece = os.read(self.take, 1 << 20)
            if not piece:
                raise BrowserFault("the browser has ended")
            self.buffer += piece
        text, _, self.buffer = self.buffer.partition(NUL)
        message: dict[str, Any] = json.loads(text)
        return message

    def send(self, method: str, **values: Any) -> dict[str, Any]:
        """Has the browser do something, and gives what it answers."""
        self.number += 1
        message = {"id": self.number, "method": method, "params": values}
        if self.session:
            message["sessionId"] = self.session
        os.write(self.give, json.dumps(message).encode() + NUL)
        while True:
            answer = self.read_message()
            if answer.get("id") != self.number:
                self.events.append(answer)
            elif "error" in answer:
                raise BrowserFault(f"{method}: {answer['error']['message']}")
            else:
                found: dict[str, Any] = answer["result"]
                return found

    def value_of(self, script: str) -> Any:
        """What a script on the page gives."""
        found = self.send(
            "Runtime.evaluate", expression=script, returnByValue=True, awaitPromise=True
        )
        if "exceptionDetails" in found:
            raise BrowserFault(f"{script}: {found['exceptionDetails']}")
        return found["result"].get("value")

    def wait_for(self, script: str, seconds: float = ANSWER_SECONDS) -> Any:
        """Waits until a script gives something true, and gives that."""
        until = time.monotonic() + seconds
        while not (found := self.value_of(script)):
            if time.monotonic() > until:
                raise BrowserFault(f"`{script}` doesn't come true: {self.value_of(STATE)}")
            time.sleep(0.02)
        return found

    def open(self, path: str) -> None:
        self.send("Page.navigate", url=f"file://{os.path.abspath(path)}")
        self.wait_for("document.readyState === 'complete'")

    def resize(self, width: int, height: int) -> None:
        self.send(
            "Emulation.setDeviceMetricsOverride",
            width=width,
            height=height,
            deviceScaleFactor=1,
            mobile=False,
        )

    def choose_file(self, path: str) -> None:
        """Chooses a file by the page's button."""
        found = self.send("Runtime.evaluate", expression="document.getElementById('file')")
        self.send("DOM.setFileInputFiles", files=[path], objectId=found["result"]["objectId"])

    def drop_file(self, path: str) -> None:
        """Drags a file onto the page."""
        data = {"items": [], "files": [path], "dragOperationsMask": 1}
        for kind in ("dragEnter", "dragOver", "drop"):
            self.send("Input.dispatchDragEvent", type=kind, x=100, y=150, data=data)

    def set_value(self, name: str, value: str) -> None:
        """Gives a control a value, as a user does."""
        self.value_of(
            f"(() => {{ const it = document.getElementById({name!r}); it.value = {value!r};"
            " it.dispatchEvent(new Event('change', { bubbles: true })); })()"
        )

    def take_picture(self, path: str) -> None:
        size = self.send("Page.getLayoutMetrics")["cssContentSize"]
        # (without the scroll bar, which isn't in the picture)
        size["width"] = self.value_of("window.innerWidth")
        found = self.send(
            "Page.captureScreenshot",
            format="png",
            captureBeyondViewport=True,
            clip={**size, "scale": 1},
        )
        with open(path, "wb") as file:
            file.write(base64.b64decode(found["data"]))

    def find_events(self, test: Callable[[dict[str, Any]], bool]) -> list[dict[str, Any]]:
        return [it for it in self.events if test(it)]


STATE = "document.getElementById('status')?.textContent"
