"""Shows and follows the limits of one reporter."""

from __future__ import annotations

import logging

import click

from bwe_control.client import follow_limits, read_limits
from bwe_control.keys import plain_name
from bwe_control.session import Session, log_to_standard_error


@click.command()
@click.argument("reporter")
@click.option("--follow", "follows", is_flag=True, help="Go on, a block whenever either changes.")
@click.pass_obj
def command(session: Session, reporter: str, follows: bool) -> None:
    """Write what is posted and the limits of REPORTER, in kilobits per second.

    A block is `posted ` and the posted table's prefix, document and total, `limits ` and the rows
    of the reporter's tasks, and an empty row. With --follow it goes on while the store is away.
    """
    plain_name(reporter, "a reporter's name")
    store = session.open()
    if not follows:
        print(read_limits(store, session.keys, reporter).text(), end="", flush=True)
        return
    log_to_standard_error(logging.INFO)
    for limits in follow_limits(store, session.keys, reporter):
        print(limits.text(), end="", flush=True)
