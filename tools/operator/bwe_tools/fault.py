"""A fault of a document: where it is, what it is, what was likely meant, and the line that bwe
refuses it with.
"""

from __future__ import annotations

from dataclasses import dataclass, replace

from bwe_tools.raw import Place

# The keys of all objects in the order of the format's tables, so that each object's own keys stand
# in their order.
WALK = (
    "version top name from to function reporter weight link task demand capacity owner share "
    "links groups reporters script closings paths users jobs tasks"
).split()


@dataclass(frozen=True)
class Fault:
    """`place` is the steps from the root; `key` is a key of the object there where that is at
    fault.
    """

    place: Place
    sentence: str
    meant: str | None = None
    key: str | None = None
    refusal: str = ""

    def refused(self, line: str) -> Fault:
        return replace(self, refusal=f"refused {line}")


def pointer(place: Place) -> str:
    return "/" + "/".join(map(str, place))


def walk_order(place: Place) -> tuple[int, ...]:
    """What sorts places in the order of the format's walk: an object before its members."""
    return tuple(
        step if isinstance(step, int) else WALK.index(step) if step in WALK else -1
        for step in place
    )
