"""The page of what is posted: that of `bwe-tools page`, made of the store, with what follows it."""

from __future__ import annotations

import json
from dataclasses import dataclass
from html import escape
from pathlib import Path

from bwe_tools.document import parse
from bwe_tools.page import page
from bwe_tools.table import parse_table
from bwe_tools.view import view_of

from bwe_control.errors import Compacted, StoreAway
from bwe_control.keys import Keys
from bwe_control.network import Network, is_reporter, network_of
from bwe_control.programs import run_bwe
from bwe_control.reports import read_report
from bwe_control.status import Status
from bwe_control.store.interface import Entry, Select, Store
from bwe_control.values import Posted, accepted_of, posted_of

ASSETS = Path(__file__).parent / "assets"
MOST_TASKS = 2_000


@dataclass(frozen=True)
class Picture:
    """A page that was made: which table it shows, and its bytes."""

    posted: Posted
    text: str


class PictureMaker:
    """Makes the page of the posted table; the table is computed by `bwe` alone."""

    def __init__(self, store: Store, keys: Keys) -> None:
        self._store, self._keys = store, keys

    def make(self) -> Picture | None:
        """The page of what is posted now; None where nothing is."""
        selects = [Select(self._keys.posted), Select(self._keys.accepted)]
        reading = self._store.read([*selects, Select(self._keys.reports, True)])
        posted, accepted = (found.one() for found in reading.found[:2])
        if posted is None or accepted is None:
            return None
        table = posted_of(posted.value)
        revision, text = accepted_of(accepted.value)
        if revision != table.document:
            raise StoreAway("a new document is in force, and its table is still to come")
        reports = self._reports_at(table.prefix, reading.found[2].entries)
        return Picture(table, self._text(network_of(revision, text), text, reports))

    def _reports_at(self, prefix: int, now: tuple[Entry, ...]) -> tuple[Entry, ...]:
        """The reports as they stood at a prefix; where that is not kept, those of now if as old."""
        if all(it.modified <= prefix for it in now):
            return now
        try:
            return self._store.read([Select(self._keys.reports, True)], at=prefix).found[0].entries
        except Compacted:
            raise StoreAway("the table of the newest reports is still to come") from None

    def _text(self, network: Network, text: bytes, reports: tuple[Entry, ...]) -> str:
        document = dict(json.loads(text), script=list(_script(self._keys, network, reports)))
        whole = json.dumps(document, separators=(",", ":")).encode()
        table = parse_table(run_bwe(["solve"], whole).decode(), "the table")
        levels = run_bwe(["levels", "1000000000"], whole).decode().splitlines()
        words = [line.split() for line in levels if line.startswith("level ")]
        values = {name: int(value) for _, name, value in words}
        view = view_of(parse(whole, "the document"), table, values)
        return str(page(view, f"Network {self._keys.network}", [], MOST_TASKS))


def _script(keys: Keys, network: Network, reports: tuple[Entry, ...]) -> list[dict[str, object]]:
    """The reports as a document's script."""
    found: list[dict[str, object]] = []
    for entry in reports:
        name = entry.key.removeprefix(keys.reports)
        if not is_reporter(network, name):
            continue
        report = read_report(network, name, entry.modified, entry.value)
        for start, amount in report.amounts.items():
            kind, what = start.decode().split()
            key = "task" if kind == "demand" else "link"
            found.append({"reporter": name, key: what, kind: amount})
    return found


def with_following(text: str, token: str) -> str:
    """The page with the script that keeps it current; `token` names the table that it shows."""
    script = (ASSETS / "follow.js").read_text(encoding="utf-8")
    style = (ASSETS / "follow.css").read_text(encoding="utf-8")
    text = text.replace("default-src 'none';", "default-src 'none'; connect-src 'self';", 1)
    text = text.replace("</style>", f"{style}</style>", 1)
    text = text.replace("<body>", '<body>\n<p id="notice" role="status" hidden></p>', 1)
    return text.replace(
        "</body>", f'<script id="follow" data-token="{token}">\n{script}</script>\n</body>', 1
    )


def empty_page(network: str) -> str:
    """The page where no table is posted yet."""
    title = f"Network {escape(network)}"
    return (
        '<!DOCTYPE html>\n<html lang="en">\n<head>\n<meta charset="utf-8">\n'
        '<meta http-equiv="Content-Security-Policy" content="default-src \'none\';'
        " style-src 'unsafe-inline'; script-src 'unsafe-inline'; img-src data:\">\n"
        '<link rel="icon" href="data:,">\n'
        f"<title>{title}</title>\n<style>\n</style>\n</head>\n<body>\n<main>\n<h1>{title}</h1>\n"
        "<p>No table is posted yet.</p>\n</main>\n</body>\n</html>\n"
    )


def standing(status: Status) -> str:
    """One sentence of HTML: the leader, and what stands unposted or refused."""
    refused = [it.name for it in status.reporters if it.refusals]
    missing = [it.name for it in status.reporters if it.report is None]
    parts = [f"Leader: {escape(status.leader)}" if status.leader else "No allocator leads"]
    if status.posted:
        parts.append(f"prefix {status.posted.prefix:,} of revision {status.revision:,} is posted")
    if status.refused_document:
        parts.append(f"the last document is refused: {escape(status.refused_document[1])}")
    if refused:
        parts.append(f"lines are refused of {escape(', '.join(refused[:10]))}")
    if missing:
        parts.append(f"no report of {escape(', '.join(missing[:10]))}")
    return "; ".join(parts) + "."
