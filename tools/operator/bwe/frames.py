"""Tables as frames of pandas."""

from __future__ import annotations

from typing import TYPE_CHECKING, NamedTuple

from bwe_tools.document import ToolError
from bwe_tools.table import Table

if TYPE_CHECKING:
    from pandas import DataFrame


class Frames(NamedTuple):
    """The parts of a table, each with the names as its index. Rates are in kb/s.

    `links` has load and the share at which it closed (missing where it did not), `groups` share and
    amount, `path_groups` by group and place amount and what closed it, `tasks` limit.
    """

    links: DataFrame
    groups: DataFrame
    path_groups: DataFrame
    tasks: DataFrame


def frames(table: Table) -> Frames:
    """A table as frames; an Error where pandas is not installed."""
    try:
        from pandas import DataFrame, Index, MultiIndex
    except ImportError:
        raise ToolError("frames need pandas: apt-get install python3-pandas") from None
    closed_at = table.share_of_closing()
    parts = [
        (group.name, place, part)
        for group in table.groups
        for place, part in enumerate(group.path_groups)
    ]
    return Frames(
        links=DataFrame(
            {
                "load": [link.load for link in table.links],
                "closed_at": [closed_at.get(link.name) for link in table.links],
            },
            index=Index([link.name for link in table.links], name="link"),
        ),
        groups=DataFrame(
            {
                "share": [group.share for group in table.groups],
                "amount": [group.amount for group in table.groups],
            },
            index=Index([group.name for group in table.groups], name="group"),
        ),
        path_groups=DataFrame(
            {
                "amount": [part.amount for _, _, part in parts],
                "closed_by": [part.closed_by for _, _, part in parts],
            },
            index=MultiIndex.from_tuples(
                [(name, place) for name, place, _ in parts], names=["group", "place"]
            ),
        ),
        tasks=DataFrame(
            {"limit": [task.limit for task in table.tasks]},
            index=Index([task.name for task in table.tasks], name="task"),
        ),
    )
