"""What somebody likely meant: a near name, a number with a unit, a name without blanks."""

from __future__ import annotations

import difflib
import re
import unicodedata
from collections.abc import Iterable
from itertools import islice
from string import ascii_letters, digits

from bwe_tools.units import kilobits

NAME = re.compile(r"[A-Za-z0-9_.-]{1,64}\Z")
NAME_LETTERS, MOST_LETTERS = (ascii_letters + digits + "_.-").encode(), 64
# Letters that are easily taken for digits, in words whose capitals are small letters.
LOOK_ALIKE = str.maketrans("oil", "011")
MANY, ENDS = 20_000, 3


def near(word: str, words: Iterable[str]) -> str | None:
    """The word among others that is most like it, where one is like enough. Of very many others
    only those that begin or end as it does are looked at.
    """
    others = {other.lower(): other for other in words}
    alike = {other.translate(LOOK_ALIKE): other for other in others}
    if word.lower().translate(LOOK_ALIKE) in alike:
        return others[alike[word.lower().translate(LOOK_ALIKE)]]
    listed = list(others) if len(others) <= MANY else with_its_ends(word.lower(), others)
    found = difflib.get_close_matches(word.lower(), listed, n=1, cutoff=0.6)
    return others[found[0]] if found else None


def with_its_ends(word: str, others: Iterable[str]) -> list[str]:
    """The first of the words of about its length that begin or end with the same letters."""
    begin, end = word[:ENDS], word[-ENDS:]
    alike = (
        other
        for other in others
        if abs(len(other) - len(word)) <= ENDS
        and (other.startswith(begin) or other.endswith(end))
    )
    return list(islice(alike, MANY))


def plain_name(text: str) -> str:
    """A text as a name of the format: accents taken off, each other sign a hyphen, at most 64 long.
    """
    letters = unicodedata.normalize("NFKD", text).encode("ascii", "ignore").decode()
    return re.sub(r"[^A-Za-z0-9_.]+", "-", letters).strip("-")[:64].rstrip("-") or "x"


def whole(value: object) -> str | None:
    """The whole number that a value stands for, as it is written in a document."""
    if isinstance(value, str):
        amount = kilobits(value)
        return None if amount is None else str(amount)
    if isinstance(value, bool) or not isinstance(value, (int, float)):
        return None
    return (
        str(round(value))
        if 0 <= value < 2**53 and getattr(value, "text", "")[:1] != "-"
        else None
    )
