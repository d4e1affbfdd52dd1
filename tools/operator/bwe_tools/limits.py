"""The limits of a document, which its version decides ("Limits", docs/FORMAT.md)."""

from __future__ import annotations

from typing import NamedTuple

NEWEST = 4  # the version with the greatest limits
PLAIN = 3  # what tools write that need no greater limits


class Limits(NamedTuple):
    """The most that a document may have of each thing. `size` is its bytes."""

    links: int
    groups: int
    tasks: int
    hops: int
    reporters: int
    reports: int
    closings: int
    size: int


BEFORE_4 = Limits(4_096, 1_024, 20_000, 1_000_000, 64, 200_000, 4_096, 67_108_864)
OF_4 = Limits(65_536, 65_536, 1_048_576, 16_777_216, 4_096, 4_194_304, 65_536, 1_073_741_824)


def is_4(version: object) -> bool:
    """Whether a value is the whole number 4: neither 4.0 nor "4"."""
    return type(version) is int and version == NEWEST


def limits_of(version: object) -> Limits:
    """The limits of a version; those of each but 4 are the limits of versions 1 to 3."""
    return OF_4 if is_4(version) else BEFORE_4


def version_of(raw: object) -> object:
    """The version of JSON, whatever it is; None where it has none."""
    return raw.get("version") if isinstance(raw, dict) else None
