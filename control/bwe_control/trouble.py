"""What goes wrong again and again, said once as long as it lasts."""

from __future__ import annotations


class Trouble:
    """The sentences that were said since all was well: of three members each may have its own."""

    def __init__(self) -> None:
        self._said: set[str] = set()

    def is_new(self, sentence: str) -> bool:
        """Whether it has not been said since; it counts as said from now on."""
        is_new = sentence not in self._said
        self._said.add(sentence)
        return is_new

    def is_over(self) -> bool:
        """All is well: whether it was not before."""
        was_there = bool(self._said)
        self._said.clear()
        return was_there
