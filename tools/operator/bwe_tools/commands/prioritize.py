"""bwe-tools prioritize: tiers as ranges of shares of one document."""

from __future__ import annotations

from dataclasses import replace

import click

from bwe_tools.document import (
    Function,
    Group,
    Job,
    ToolError,
    User,
    first_fault,
    read_bytes,
    text_of,
    to_raw,
)
from bwe_tools.files import named, read_document
from bwe_tools.rules import MOST_SHARE


@click.command()
@click.argument("document")
@click.argument("tiers")
def command(document: str, tiers: str) -> None:
    """Write DOCUMENT so that `bwe solve` and `bwe-live` serve one tier before the next.

    TIERS is what `bwe tiers` reads: a digit from 0 to 7 for each group, and a line feed; tier 0
    comes first. The groups of tier K get nothing up to share K times `top`, and then what they had
    before: each function of the group, its users and jobs begins so many shares later, and the new
    `top` has room for all tiers.

    It differs from `bwe tiers` in this: a link that closed for a tier stays closed for those behind
    it. `bwe tiers` fills what such a link has left, and needs a run of its own for each table.

    Example: bwe-tools prioritize examples/shared-link.json examples/shared-link.tiers | bwe solve
    """
    _, parsed = read_document(document)
    digits = digits_of(read_bytes(tiers), len(parsed.groups), named(tiers))
    top = parsed.top * (max(digits, default=0) + 1)
    if top > MOST_SHARE:
        raise ToolError(f"the tiers need a top of {top:,}, and the greatest is {MOST_SHARE:,}")
    groups = tuple(
        moved_group(group, digit * parsed.top) for group, digit in zip(parsed.groups, digits)
    )
    raw = to_raw(replace(parsed, top=top, groups=groups, closings=()))
    fault = first_fault(raw)
    if fault is not None:
        raise ToolError(
            f"{named(document)} with its tiers: {fault.sentence} (bwe: {fault.refusal})"
        )
    click.echo(text_of(raw), nl=False)


def digits_of(text: bytes, groups: int, name: str) -> list[int]:
    """The tier of each group."""
    line = text.decode("ascii", "replace")
    if len(line) != groups + 1 or not line.endswith("\n") or not set(line[:-1]) <= set("01234567"):
        raise ToolError(
            f"{name}: this is one digit from 0 to 7 for each of {groups} groups, and a" " line feed"
        )
    return [int(digit) for digit in line[:-1]]


def moved_group(group: Group, shares: int) -> Group:
    """A group whose functions, and those of its users and jobs, begin so many shares later."""
    users = tuple(moved_user(user, shares) for user in group.users)
    return replace(group, function=own_moved(group.function, shares), users=users)


def moved_user(user: User, shares: int) -> User:
    jobs = tuple(moved_job(job, shares) for job in user.jobs)
    return replace(user, function=own_moved(user.function, shares), jobs=jobs)


def moved_job(job: Job, shares: int) -> Job:
    own, each = own_moved(job.function, shares), moved(job.task_function, shares)
    return replace(job, function=own, task_function=each)


def own_moved(function: Function | None, shares: int) -> Function | None:
    return None if function is None else moved(function, shares)


def moved(function: Function, shares: int) -> Function:
    if shares == 0:
        return function
    return ((0, 0), *((share + shares, amount) for share, amount in function))
