"""Says how a deployment stands."""

from __future__ import annotations

import dataclasses
import json
from collections.abc import Iterator

import click

from bwe_control.session import Session
from bwe_control.status import ReporterStatus, Status, StatusReader
from bwe_control.values import printable


@click.command()
@click.option("--json", "as_json", is_flag=True, help="Write one object of JSON.")
@click.pass_obj
def command(session: Session, as_json: bool) -> None:
    """Write who leads, which document is in force, what is posted, and how each reporter stands.

    Ages and lags are in revisions of the store, which each report and each table raises: a store has
    no clock. The allocator's /metrics has them in seconds.
    """
    status = StatusReader(session.open(), session.keys).read()
    if as_json:
        print(json.dumps(_object(status), indent=1))
        return
    for line in _lines(session, status):
        print(line)


def _lines(session: Session, status: Status) -> Iterator[str]:
    yield f"store {session.store} network {session.keys.network} revision {status.revision}"
    yield f"leader {status.leader or 'none'}"
    yield f"document {_none(status.document)} in force {_none(status.accepted)}"
    if status.refused_document:
        yield f"document {status.refused_document[0]} refused: {status.refused_document[1]}"
    posted = status.posted.text().strip() if status.posted else "none"
    yield f"posted {posted} lag {status.lag}"
    for reporter in status.reporters:
        yield from _reporter(reporter)
    for name in status.ignored:
        yield f"ignored {_shown(name)}: the document in force has no such reporter"


def _reporter(reporter: ReporterStatus) -> Iterator[str]:
    age = "" if reporter.age is None else f" age {reporter.age}"
    yield f"reporter {reporter.name} report {_none(reporter.report)}{age}"
    refusals = reporter.refusals
    if refusals:
        yield f"refused {reporter.name} revision {refusals.revision} lines {refusals.number}"
        for line in refusals.lines[:10]:
            yield f"refused {reporter.name} line {line.number} cause {line.cause}: {line.text}"


def _object(status: Status) -> dict[str, object]:
    whole = dataclasses.asdict(status)
    refused = status.refused_document
    whole["refused_document"] = refused and {"revision": refused[0], "line": refused[1]}
    whole["ignored"] = [_shown(name) for name in status.ignored]
    return whole


def _shown(name: str) -> str:
    return printable(name.encode("utf-8", "surrogateescape"))


def _none(number: int | None) -> str:
    return "none" if number is None else str(number)
