"""A headless Chromium that is spoken to over two pipes, by the DevTools protocol."""

from __future__ import annotations

import json
import os
import shutil
import subprocess
import tempfile
import time
from typing import Any


class Browser:
    """One tab. `evaluate` runs a line of JavaScript in it."""

    def __init__(self) -> None:
        self._profile = tempfile.mkdtemp(prefix="bwe-chromium-")
        command_read, self._to = os.pipe()
        self._from, answer_write = os.pipe()
        words = [
            *["chromium", "--headless=new", "--no-sandbox", "--disable-gpu", "--no-first-run"],
            *["--disable-dev-shm-usage", f"--user-data-dir={self._profile}"],
            *["--remote-debugging-pipe", "about:blank"],
        ]
        self._child = subprocess.Popen(
            words,
            preexec_fn=lambda: (
                os.dup2(command_read, 3),
                os.dup2(answer_write, 4),
            ),  # noqa: PLW1509
            pass_fds=(3, 4),
            stdin=subprocess.DEVNULL,
            stdout=subprocess.DEVNULL,
            stderr=subprocess.DEVNULL,
        )
        os.close(command_read)
        os.close(answer_write)
        self._number, self._rest = 0, b""
        targets = self._call("Target.getTargets")["targetInfos"]
        target = next(it["targetId"] for it in targets if it["type"] == "page")
        given = {"targetId": target, "flatten": True}
        self._session = self._call("Target.attachToTarget", given)["sessionId"]

    def _call(self, method: str, given: Any = None, session: str | None = None) -> Any:
        self._number += 1
        message = {"id": self._number, "method": method, "params": given or {}}
        if session:
            message["sessionId"] = session
        os.write(self._to, json.dumps(message).encode() + b"\0")
        while True:
            answer = self._answer()
            if answer.get("id") == self._number:
                assert "error" not in answer, answer
                return answer["result"]

    def _answer(self) -> Any:
        while b"\0" not in self._rest:
            more = os.read(self._from, 1 << 16)
            assert more, "chromium has ended"
            self._rest += more
        first, self._rest = self._rest.split(b"\0", 1)
        return json.loads(first)

    def open(self, address: str) -> None:
        self._call("Page.navigate", {"url": address}, self._session)

    def evaluate(self, text: str) -> Any:
        given = {"expression": text, "returnByValue": True, "awaitPromise": True}
        answer = self._call("Runtime.evaluate", given, self._session)
        assert "exceptionDetails" not in answer, answer
        return answer["result"].get("value")

    def wait(self, text: str, seconds: float = 60.0) -> None:
        """Waits until a line of JavaScript is true."""
        until = time.monotonic() + seconds
        while not self.evaluate(text):
            body = self.evaluate("document.body && document.body.innerText.slice(0, 600)")
            assert time.monotonic() < until, f"{text} did not come: {body}"
            time.sleep(0.1)

    def close(self) -> None:
        self._child.kill()
        self._child.wait()
        os.close(self._to)
        os.close(self._from)
        shutil.rmtree(self._profile, ignore_errors=True)
