"""What a command is at, on a terminal and for long inputs alone."""

from __future__ import annotations

import sys

LONG = 4_000_000


class Stages:
    """One line on standard error, which the next stage takes the place of."""

    def __init__(self, size: int) -> None:
        """`size` is how many bytes there are to work on."""
        self.is_shown = size > LONG and sys.stderr.isatty()
        self.size = size

    def stage(self, what: str) -> None:
        if self.is_shown:
            sys.stderr.write(f"\r\033[Kbwe-tools: {what} ({self.size / 1e6:.0f} MB)")
            sys.stderr.flush()

    def end(self) -> None:
        if self.is_shown:
            sys.stderr.write("\r\033[K")
