"""The log of a run: one event a line of JSON, stamped with the monotonic clock of the machine."""

import json
import time
from pathlib import Path


def text_of(value: bytes) -> str:
    """Bytes of a value as text that gives the same bytes again by `bytes_of`."""
    return value.decode("utf-8", "surrogateescape")


def bytes_of(text: str) -> bytes:
    return text.encode("utf-8", "surrogateescape")


class Log:
    """Appends events to a file; each is on its way to the disk when `write` returns."""

    def __init__(self, path: Path) -> None:
        self.file = path.open("a", encoding="ascii")

    def write(self, what: str, **more: object) -> None:
        event = {"at": time.monotonic(), "what": what, **more}
        self.file.write(json.dumps(event) + "\n")
        self.file.flush()

    def close(self) -> None:
        self.file.close()
