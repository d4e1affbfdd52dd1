"""Serves a page that follows the tables."""

from __future__ import annotations

import logging
import signal
import sys
from types import FrameType

import click

from bwe_control.metrics import PageMetrics
from bwe_control.page_server import serve
from bwe_control.session import Session, log_to_standard_error


@click.command()
@click.option(
    "--port", type=click.IntRange(0, 65535), default=8780, show_default=True, metavar="PORT"
)
@click.pass_obj
def command(session: Session, port: int) -> None:
    """Serve one page on 127.0.0.1 that follows the tables, and /metrics.

    The page is that of `bwe-tools page`, for the table that is posted. Where the store or this
    command is away, the last table stays, and the page says so. Port 0 takes a free one.
    """
    log_to_standard_error(logging.INFO)
    session.say_how_it_speaks()
    signal.signal(signal.SIGTERM, _stop)
    try:
        serve(session, port, PageMetrics())
    except KeyboardInterrupt:
        sys.exit(0)


def _stop(number: int, frame: FrameType | None) -> None:
    raise KeyboardInterrupt
