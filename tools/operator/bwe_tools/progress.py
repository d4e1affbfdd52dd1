"""How far a long command is, on standard error."""

from __future__ import annotations

import sys
import time
from collections.abc import Callable
from types import TracebackType

# Is told how many are done, and of how many.
Told = Callable[[int, int], None]
QUIET_SECONDS = 1.0  # a command that is done by then says nothing
PAUSE_ON_TERMINAL, PAUSE_ELSEWHERE = 0.2, 10.0


class Progress:
    """Says `WHAT: DONE of ALL`, on a terminal over and over in one row, elsewhere now and then."""

    def __init__(self, what: str) -> None:
        self.what = what
        self.is_terminal = sys.stderr.isatty()
        self.pause = PAUSE_ON_TERMINAL if self.is_terminal else PAUSE_ELSEWHERE
        self.next = time.monotonic() + QUIET_SECONDS
        self.has_said = False

    def __enter__(self) -> Progress:
        return self

    def __exit__(
        self,
        kind: type[BaseException] | None,
        fault: BaseException | None,
        trace: TracebackType | None,
    ) -> None:
        if self.is_terminal and self.has_said:
            print("\r\033[K", end="", file=sys.stderr, flush=True)

    def __call__(self, done: int, of: int) -> None:
        now = time.monotonic()
        if now < self.next:
            return
        self.next = now + self.pause
        self.has_said = True
        text = f"{self.what}: {done} of {of}"
        start, end = ("\r\033[K", "") if self.is_terminal else ("", "\n")
        print(start + text, end=end, file=sys.stderr, flush=True)
