"""Whether a loop gets on: it says so at each step, and another thread asks when it did last."""

from __future__ import annotations

import time


class Progress:
    """The monotonic time of the last step."""

    def __init__(self) -> None:
        self._last = time.monotonic()

    def beat(self) -> None:
        self._last = time.monotonic()

    def age(self) -> float:
        """Seconds since the last step."""
        return time.monotonic() - self._last
