"""What may be asked of a document: links that fail together, other capacities, other demands."""

from __future__ import annotations

from collections.abc import Iterable, Sequence
from dataclasses import dataclass, field, replace
from decimal import Decimal
from itertools import combinations
import re

from bwe_tools import units
from bwe_tools.document import Document, ToolError, at_least_3, read_bytes
from bwe_tools.limits import OF_4, limits_of
from bwe_tools.network import rate as kilobits_of
from bwe_tools.rate import rate

FACTOR = re.compile(r"x(\d{1,4}(?:\.\d{1,6})?)\Z", re.ASCII)


@dataclass(frozen=True)
class Question:
    """Capacities by link and demands by task, in kb/s, that are asked about at once."""

    name: str
    capacities: dict[str, int] = field(default_factory=dict)
    demands: dict[str, int] = field(default_factory=dict)


def drain(links: Sequence[str], name: str = "") -> Question:
    return Question(name or " ".join(links), dict.fromkeys(links, 0))


def together(questions: Iterable[Question]) -> Question:
    """All questions as one; where two say something of one thing, the later counts."""
    listed = list(questions)
    whole = Question(" + ".join(one.name for one in listed))
    for one in listed:
        whole.capacities.update(one.capacities)
        whole.demands.update(one.demands)
    return whole


def pairs(questions: Sequence[Question]) -> list[Question]:
    """Each two questions at once."""
    return [together(pair) for pair in combinations(questions, 2)]


def other_capacity(document: Document, text: str) -> Question:
    """The question of `LINK=RATE`."""
    link, amount = _sides(text, "--capacity", "LINK=80G")
    if link not in {one.name for one in document.links}:
        raise ToolError(f"the document has no link {link}")
    capacity: int = kilobits_of(amount, "--capacity")
    return Question(f"{link} at {rate(capacity)}", {link: capacity})


def other_demand(document: Document, text: str) -> Question:
    """The question of `GROUP=x1.5`, or of `GROUP=RATE`, which the group's tasks share as they
    share what they want now.
    """
    name, amount = _sides(text, "--demand", "GROUP=x1.5")
    group = next((one for one in document.groups if one.name == name), None)
    if group is None:
        raise ToolError(f"the document has no group {name}")
    demands = document.demands()
    wanted = {task.name: demands[task.name] for task in group.tasks()}
    factor = FACTOR.match(amount)
    if factor is not None:
        times = Decimal(factor[1])
        asked = {task: units.whole(demand * times) for task, demand in wanted.items()}
        shown = amount
    else:
        whole: int = kilobits_of(amount, "--demand")
        asked, shown = shared_out(wanted, whole), rate(whole)
    if max(asked.values()) > units.MOST:
        raise ToolError(f"--demand: {text} is above {units.MOST:,} kb/s for a task")
    return Question(f"{name} {shown}", demands=asked)


def shared_out(wanted: dict[str, int], whole: int) -> dict[str, int]:
    """An amount shared out by what tasks want, evenly where none wants anything; the parts add up
    to it.
    """
    weights = wanted if sum(wanted.values()) > 0 else dict.fromkeys(wanted, 1)
    left, weight_left = whole, sum(weights.values())
    parts = {}
    for task, weight in weights.items():
        parts[task] = left * weight // weight_left if weight_left else 0
        left, weight_left = left - parts[task], weight_left - weight
    return parts


def _sides(text: str, option: str, form: str) -> tuple[str, str]:
    name, equals, amount = text.rpartition("=")
    if not equals:
        raise ToolError(f'{option}: "{text}" is not as {form}')
    return name, amount


def read_risk_groups(path: str, document: Document) -> list[Question]:
    """The groups of links that share a fate, of a file with a row `NAME LINK LINK ..` for each;
    what stands behind a `#` is read over.
    """
    known = {link.name for link in document.links}
    try:
        text = read_bytes(path).decode("utf-8")
    except UnicodeDecodeError:
        raise ToolError(f"{path} is not UTF-8") from None
    found: dict[str, Question] = {}
    for number, row in enumerate(text.splitlines(), 1):
        words = row.partition("#")[0].split()
        if not words:
            continue
        name, links = words[0].removesuffix(":"), list(dict.fromkeys(words[1:]))
        if not links:
            raise ToolError(f"{path} line {number}: group {name} has no links")
        if name in found:
            raise ToolError(f"{path} line {number}: group {name} stands twice")
        unknown = next((link for link in links if link not in known), None)
        if unknown is not None:
            raise ToolError(f"{path} line {number}: the document has no link {unknown}")
        found[name] = drain(links, f"{name} ({' '.join(links)})")
    if not found:
        raise ToolError(f"{path} has no groups of links")
    return list(found.values())


def askable(document: Document) -> Document:
    """The document with an owner for each link, so that each capacity can be reported. Its table
    is the same.
    """
    if all(link.owner is not None for link in document.links):
        return replace(document, version=at_least_3(document))
    reporters = document.reporters
    owner = next((name for name in reporters), "whatif")
    if len(reporters) < limits_of(document.version).reporters:
        owner = next(name for name in _names("whatif") if name not in reporters)
        reporters = (*reporters, owner)
    links = tuple(replace(link, owner=link.owner or owner) for link in document.links)
    return replace(document, version=at_least_3(document), links=links, reporters=reporters)


def _names(plain: str) -> Iterable[str]:
    yield plain
    yield from (f"{plain}-{number}" for number in range(2, OF_4.reporters + 3))
