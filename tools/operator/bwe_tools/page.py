"""A view as one HTML page that stands alone: nothing is loaded from elsewhere."""

from __future__ import annotations

from collections.abc import Iterable
from dataclasses import dataclass
from html import escape

from bwe_tools.columns import few
from bwe_tools.drains import Drain
from bwe_tools.layout import Spots
from bwe_tools.network_map import ASSETS, NARROW, WIDE, WORDS, state_of, svg
from bwe_tools.rate import percent, rate, tenths_of_percent
from bwe_tools.view import GroupView, LinkView, PathGroupView, TaskView, View

POLICY = "default-src 'none'; style-src 'unsafe-inline'; script-src 'unsafe-inline'; img-src data:"


# A text of HTML, or the number by which a column is sorted and the text.
Cell = str | tuple[int, str]


@dataclass(frozen=True)
class Listing:
    """A table of the page: its name, what its box picks out, and its columns.

    A column has a heading and classes: `n` for numbers, `wide` for what a phone leaves out, `plain`
    for what has no order.
    """

    name: str
    box: str
    columns: tuple[tuple[str, str], ...]

    @property
    def anchor(self) -> str:
        return self.name.lower()


GROUPS = Listing(
    "Groups",
    "held by links only",
    (
        ("Group", ""),
        ("Asks", "n"),
        ("Gets", "n"),
        ("Of what it asks", ""),
        ("Share", "n wide"),
        ("Path groups, and what closed them", "plain"),
    ),
)
LINKS = Listing(
    "Links",
    "full or drained only",
    (
        ("Link", ""),
        ("From and to", "wide"),
        ("Capacity", "n"),
        ("Load", "n"),
        ("How full", ""),
        ("State", ""),
    ),
)
TASKS = Listing(
    "Tasks",
    "held only",
    (
        ("Task", ""),
        ("Group", "wide"),
        ("Demand", "n"),
        ("Limit", "n"),
        ("Of its demand", ""),
        ("Held by", ""),
    ),
)
DRAINS = Listing(
    "Drains",
    "with a loss only",
    (
        ("Drained", ""),
        ("Total after", "n"),
        ("Change", "n"),
        ("Tasks that lose a tenth", "n"),
        ("Groups with nothing", ""),
    ),
)


def page(
    view: View, title: str, drains: list[Drain], most_tasks: int, places: Spots | None = None
) -> str:
    """The whole page. Of the tasks at most so many have a row, those that are held first. `places`
    are longitudes and latitudes by site: where each site has one, the map is drawn by them.
    """
    parts = [
        _head(view, title, bool(drains)),
        _map(view, places or {}),
        _groups(view),
        _links(view),
        _tasks(view, most_tasks),
        _drains(view, drains) if drains else "",
        "<footer>Made by <code>bwe-tools page</code> from a document and its table. A full link is"
        " one that closed: the next share would have put it over its capacity.</footer>",
    ]
    script = (ASSETS / "page.js").read_text(encoding="utf-8")
    return (
        '<!DOCTYPE html>\n<html lang="en">\n<head>\n<meta charset="utf-8">\n'
        f'<meta http-equiv="Content-Security-Policy" content="{POLICY}">\n'
        '<meta name="viewport" content="width=device-width, initial-scale=1">\n'
        '<link rel="icon" href="data:,">\n'
        f"<title>{escape(title)}</title>\n<style>\n{_style()}</style>\n</head>\n"
        "<body>\n<main>\n"
        + "\n".join(part for part in parts if part)
        + f"\n</main>\n<script>\n{script}</script>\n</body>\n</html>\n"
    )


def _style() -> str:
    texts = [(ASSETS / name).read_text(encoding="utf-8") for name in ("page.css", "map.css")]
    labels = "\n".join(map(_labels, (GROUPS, LINKS, TASKS, DRAINS)))
    return "".join(texts) + f"@media (max-width: 720px) {{\n{labels}\n}}\n"


def _head(view: View, title: str, has_drains: bool) -> str:
    asks = sum(group.asks for group in view.groups)
    full = sum(state_of(link) == "full" for link in view.links)
    drained = sum(link.is_drained for link in view.links)
    groups = sum(group.is_held for group in view.groups)
    tasks = list(view.tasks())
    held = sum(task.is_held for task in tasks)
    facts = [
        ("Given", rate(view.total), f"{percent(view.total, asks)} of {rate(asks)} asked"),
        ("Links full", f"{full:,}", f"of {len(view.links):,}"),
        ("Links drained", f"{drained:,}", f"of {len(view.links):,}"),
        ("Groups held by links", f"{groups:,}", f"of {len(view.groups):,}"),
        ("Tasks below their demand", f"{held:,}", f"of {len(tasks):,}"),
    ]
    names = ["Network", "Groups", "Links", "Tasks"] + (["Drains"] if has_drains else [])
    anchors = "".join(f'<a href="#{name.lower()}">{name}</a>' for name in names)
    cells = "".join(
        f"<div><dt>{name}</dt><dd>{value} <small>{below}</small></dd></div>"
        for name, value, below in facts
    )
    return (
        f'<h1>{escape(title)}</h1>\n<p class="muted">What each task may send after {view.reports:,}'
        f" reports. Shares go from 0 to {view.top:,}.</p>\n<nav>{anchors}</nav>\n"
        f'<dl class="facts">{cells}</dl>'
    )


def _map(view: View, places: Spots) -> str:
    states = {state_of(link) for link in view.links}
    legend = "".join(
        f'<li><i class="{state}" style="height:{3 + at}px"></i>{word}</li>'
        for at, (state, word) in enumerate(WORDS.items())
        if state in states
    )
    return (
        '<section id="network">\n<header><h2>Network</h2><p class="muted">Each half of a line'
        " is one direction; colour and width say how full it is. A bar marks a link that takes no"
        " more.</p>"
        f"</header>\n{svg(view, WIDE, 'wide', places)}\n{svg(view, NARROW, 'narrow', places)}\n"
        f'<ul class="legend">{legend}</ul>\n</section>'
    )


def _groups(view: View) -> str:
    states = {link.name: link.state for link in view.links}
    rows = (_group_row(group, states) for group in view.groups)
    return _section(GROUPS, rows, _closings(view))


def _group_row(group: GroupView, states: dict[str, str]) -> str:
    links = dict.fromkeys(
        link for part in group.path_groups for _, names in part.paths for link in names
    )
    places = "".join(f"<li>{_place(part, states)}</li>" for part in group.path_groups)
    cells: list[Cell] = [
        f"<b>{escape(group.name)}</b>{_below(f'{group.source} → {group.target}')}",
        (group.asks, rate(group.asks)),
        (group.amount, rate(group.amount)),
        _part(group.amount, group.asks, "busy" if group.is_held else "good"),
        (group.share, f"{group.share:,}"),
        f'<ol class="places" start="0">{places}</ol>',
    ]
    return _row(GROUPS, cells, group.is_held, links)


def _place(part: PathGroupView, states: dict[str, str]) -> str:
    together = sum(weight for weight, _ in part.paths)
    paths = [
        " › ".join(links) + (f" ({weight}/{together})" if len(part.paths) > 1 else "")
        for weight, links in part.paths
    ]
    state = "open"
    if part.closed_by is not None:
        also = "".join(f", with <b>{escape(link)}</b>" for link in part.also)
        state = f"closed by <b>{escape(part.closed_by)}</b> ({states[part.closed_by]}{also})"
    return f"{rate(part.amount)}, {state}{_below(few(paths, 2))}"


def _links(view: View) -> str:
    rows = (_link_row(link) for link in view.links)
    return _section(LINKS, rows)


def _link_row(link: LinkView) -> str:
    state = state_of(link)
    cells: list[Cell] = [
        f"<b>{escape(link.name)}</b>",
        escape(f"{link.source} → {link.target}"),
        (link.capacity, rate(link.capacity)),
        (link.load, rate(link.load)),
        _part(link.load, link.capacity, state),
        f'<span class="tag {state}">{link.state}</span>',
    ]
    closed = state in ("full", "drained")
    return _row(LINKS, cells, closed, [link.name], f"link-{link.name}")


def _tasks(view: View, most: int) -> str:
    tasks = list(view.tasks())
    shown = tasks
    note = ""
    if len(tasks) > most:
        shown = sorted(tasks, key=lambda task: not task.is_held)[:most]
        note = f'<p class="muted">{most:,} of {len(tasks):,} tasks, held ones first.</p>'
    return _section(TASKS, map(_task_row, shown), note)


def _task_row(task: TaskView) -> str:
    cells: list[Cell] = [
        f"<b>{escape(task.name)}</b>{_below(f'{task.user} / {task.job}, told by {task.reporter}')}",
        escape(task.group),
        (task.demand, rate(task.demand)),
        (task.limit, rate(task.limit)),
        _part(task.limit, task.demand, "busy" if task.is_held else "good"),
        escape(task.held_by) or '<span class="muted">nobody</span>',
    ]
    return _row(TASKS, cells, task.is_held, [])


def _drains(view: View, drains: list[Drain]) -> str:
    rows = map(_drain_row, sorted(drains, key=lambda drain: -drain.lost))
    note = f'<p class="muted">Each drain by itself; {rate(view.total)} without one.</p>'
    return _section(DRAINS, rows, note)


def _drain_row(drain: Drain) -> str:
    change = "0" if not drain.lost else ("−" if drain.lost > 0 else "+") + rate(abs(drain.lost))
    nothing = ", ".join(drain.groups_with_nothing)
    cells: list[Cell] = [
        f"<b>{escape(drain.name)}</b>",
        (drain.total, rate(drain.total)),
        (-drain.lost, change),
        (len(drain.losses), f"{len(drain.losses):,}"),
        escape(nothing) if nothing else '<span class="muted">none</span>',
    ]
    return _row(DRAINS, cells, drain.lost > 0, drain.links)


def _closings(view: View) -> str:
    if not view.closings:
        return '<p class="muted">No link closed: every group gets all that it asks for.</p>'
    items = "".join(
        f"<li>{escape(closing.name)} at {closing.share:,}</li>" for closing in view.closings
    )
    return (
        f"<details><summary>The order in which links closed, and at which share</summary>"
        f'<ol class="closings">{items}</ol></details>'
    )


def _below(text: str) -> str:
    return f'<span class="below">{escape(text)}</span>'


def _part(part: int, whole: int, state: str) -> tuple[int, str]:
    if whole == 0:
        return (-1, '<span class="muted">-</span>')
    tenths = min(tenths_of_percent(part, whole), 1000)
    return (
        tenths,
        f'<span class="share {state}"><span class="track"><span style="width:{tenths / 10}%">'
        f'</span></span><span class="text">{percent(part, whole)}</span></span>',
    )


def _row(
    listing: Listing, cells: list[Cell], picked: bool, links: Iterable[str], anchor: str = ""
) -> str:
    """A row; a cell with a number in front of its text is sorted by that number."""
    texts = []
    for cell, (_, kind) in zip(cells, listing.columns):
        text, order = cell, ""
        if not isinstance(cell, str):
            text, order = cell[1], f' data-v="{cell[0]}"'
        texts.append(f"<td{_class(kind)}{order}>{text}</td>")
    marks = (f' id="{escape(anchor)}"' if anchor else "") + (" data-held" if picked else "")
    names = " ".join(links)
    marks += f' data-links="{escape(names)}"' if names else ""
    return f"<tr{marks}>{''.join(texts)}</tr>"


def _class(kind: str) -> str:
    return f' class="{kind}"' if kind else ""


def _heading(head: str, kind: str) -> str:
    """A heading; the page's script makes a button of one by which rows can be sorted."""
    return f'<th scope="col"{_class(kind)}>{head}</th>'


def _labels(listing: Listing) -> str:
    """On a phone a row is a block: the style by which each of its cells says what it is."""
    return "\n".join(
        f'  #{listing.anchor} td:nth-child({at})::before {{ content: "{head}"; }}'
        for at, (head, _) in enumerate(listing.columns[1:], 2)
    )


def _section(listing: Listing, rows: Iterable[str], note: str = "") -> str:
    heads = "".join(_heading(head, kind) for head, kind in listing.columns)
    body = "\n".join(rows)
    # The script shows the box and the field: without it they would do nothing.
    return (
        f'<section id="{listing.anchor}">\n<header><h2>{listing.name}</h2><div class="tools" hidden>'
        f'<label><input type="checkbox"> {listing.box}</label>'
        f'<label>Find <input type="search" aria-label="Find in {listing.anchor}"></label>'
        f"</div></header>\n{note}\n"
        f'<div class="scroll" tabindex="0" role="region" aria-label="{listing.name}, a table">\n'
        f"<table>\n<thead><tr>{heads}</tr></thead>\n<tbody>\n{body}\n</tbody>\n</table>\n"
        "</div>\n</section>"
    )
