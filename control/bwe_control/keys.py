"""The keys of one network, below `/bwe/NETWORK/`, and what a plain name is."""

from __future__ import annotations

import re
from dataclasses import dataclass

from bwe_control.errors import InputError

PLAIN_NAME = re.compile(r"[A-Za-z0-9_.-]{1,64}")


def is_plain_name(text: str) -> bool:
    """Whether it is 1 to 64 of ASCII letters, digits, `-`, `_` and `.`, as all names are."""
    return PLAIN_NAME.fullmatch(text) is not None


def plain_name(text: str, what: str) -> str:
    """The name itself; an InputError where it is none. `what` names it in the sentence."""
    if is_plain_name(text):
        return text
    raise InputError(
        f"{what} is to be 1 to 64 letters, digits, `-`, `_` and `.`, and {text[:80]!r} is not"
    )


@dataclass(frozen=True)
class Keys:
    """The keys of one network."""

    network: str = "main"

    def __post_init__(self) -> None:
        plain_name(self.network, "a network's name")

    @property
    def all(self) -> str:
        """The prefix of all keys of the network."""
        return f"/bwe/{self.network}/"

    @property
    def document(self) -> str:
        return f"{self.all}document"

    @property
    def accepted(self) -> str:
        return f"{self.all}accepted"

    @property
    def leader(self) -> str:
        return f"{self.all}leader"

    @property
    def posted(self) -> str:
        return f"{self.all}posted"

    @property
    def reports(self) -> str:
        """The prefix of all reports."""
        return f"{self.all}report/"

    @property
    def slices(self) -> str:
        """The prefix of all slices of the table."""
        return f"{self.all}limits/"

    @property
    def refusals(self) -> str:
        """The prefix of all refusals."""
        return f"{self.all}refused/"

    def report(self, reporter: str) -> str:
        return self.reports + reporter

    def limits(self, reporter: str) -> str:
        return self.slices + reporter

    def refused(self, reporter: str) -> str:
        return self.refusals + reporter

    @property
    def refused_document(self) -> str:
        """Of the document; no reporter's name has a colon."""
        return f"{self.refusals}:document"
