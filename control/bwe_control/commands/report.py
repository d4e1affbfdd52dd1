"""Puts the report of a reporter."""

from __future__ import annotations

import sys

import click

from bwe_control.client import put_report, read_limits, read_refusals, wait_posted
from bwe_control.errors import OutcomeUnknown, Refused, StoreError
from bwe_control.keys import Keys, plain_name
from bwe_control.session import Session, standard_input
from bwe_control.store.interface import Store

MOST_BYTES = 8_000_000  # what a store takes in one request


@click.command()
@click.argument("reporter")
@click.option("--wait", "waits", is_flag=True, help="Wait until a table holds the report.")
@click.pass_obj
def command(session: Session, reporter: str, waits: bool) -> None:
    """Put standard input as the report of REPORTER, in place of its last one.

    Lines are `demand TASK AMOUNT` and `capacity LINK AMOUNT`, in kilobits per second. They are all
    that it reports now: what they leave out falls to demand 0 and the document's capacity. Writes
    `put R`, the revision; with --wait then `posted X`, with X at least R, or what was refused and
    exit status 1.

    \b
        printf 'demand t0 80\\ndemand t1 80\\n' | bwe-control report r0 --wait
    """
    plain_name(reporter, "a reporter's name")
    value = standard_input().read(MOST_BYTES + 1)
    if len(value) > MOST_BYTES:
        raise Refused(f"the report is longer than {MOST_BYTES} bytes; it was not put")
    store = session.open()
    revision = put_report(store, session.keys, reporter, value)
    print(f"put {revision}", flush=True)
    if waits:
        try:
            sys.exit(_outcome(store, session.keys, reporter, revision))
        except StoreError as fault:
            sentence = "the report was put, and whether a table holds it is not known"
            raise OutcomeUnknown(f"{sentence}: {fault}") from fault


def _outcome(store: Store, keys: Keys, reporter: str, revision: int) -> int:
    """Says what came of the report; the exit status."""
    posted = wait_posted(store, keys, revision)
    refusals = read_refusals(store, keys, reporter)
    if refusals is not None and refusals.revision == revision:
        print(f"refused {refusals.text()}", end="", flush=True)
        return 1
    if read_limits(store, keys, reporter).slice is None:
        print(f"refused revision {revision}: the document has no reporter {reporter}", flush=True)
        return 1
    print(f"posted {posted.prefix if posted else 0}", flush=True)
    return 0
