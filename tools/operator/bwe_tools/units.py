"""Rates with units, as people and other formats write them, in kilobits per second."""

from __future__ import annotations

import re
from decimal import Decimal, ROUND_HALF_UP

MOST = 1_000_000_000_000
RATE = re.compile(
    r"\s*(\d{1,20}(?:\.\d{1,9})?(?:[eE]\+?\d{1,2})?)"
    r"\s*([kKmMgGtT]?)\s*(b|[bB]ps|b/s|[bB]its?(?:/s)?)?\s*\Z",
    re.ASCII,
)
SIZES = {
    "": Decimal("0.001"),
    "k": Decimal(1),
    "m": Decimal(1000),
    "g": Decimal(10**6),
    "t": Decimal(10**9),
}


def whole(amount: Decimal) -> int:
    return int(amount.to_integral_value(ROUND_HALF_UP))


def kilobits(text: str, plain: str = "k") -> int | None:
    """The kb/s of `10G`, `400 Mbit/s` or `2.5Gbps`; a number without a unit is of the prefix
    `plain`. None for other texts.
    """
    found = RATE.match(text)
    if found is None:
        return None
    prefix = found[2].lower() if found[2] or found[3] else plain
    return whole(Decimal(found[1]) * SIZES[prefix])


CARRIERS = {"oc": Decimal(51_840), "stm": Decimal(155_520)}
CARRIER = re.compile(r"\b(oc|stm)[- ]?(\d{1,4})\b", re.IGNORECASE)
IN_WORDS = re.compile(
    r"(\d+(?:\.\d+)?)\s*([kmgt])(?:b|bps|bit|bits|bit/s|b/s|bits/s)?\b", re.IGNORECASE
)


def in_words(text: str) -> int | None:
    """The kb/s of the first carrier or rate in a label, as `OC-192`, `STM-64` or `10 Gbps`. None
    where there is none.
    """
    if carrier := CARRIER.search(text):
        return whole(CARRIERS[carrier[1].lower()] * int(carrier[2]))
    found = IN_WORDS.search(text)
    return None if found is None else whole(Decimal(found[1]) * SIZES[found[2].lower()])
