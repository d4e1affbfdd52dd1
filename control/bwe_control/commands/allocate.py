"""Runs an allocator."""

from __future__ import annotations

import logging
import os
import signal
import socket
import sys
import time
from contextlib import ExitStack
from types import FrameType

import click

from bwe_control.compaction import Compaction
from bwe_control.errors import StoreError
from bwe_control.keys import plain_name
from bwe_control.metrics import Metrics
from bwe_control.programs import find_program
from bwe_control.service import Service, Settings
from bwe_control.session import Session, log_to_standard_error
from bwe_control.trouble import Trouble

log = logging.getLogger(__name__)

PAUSE = 1.0  # seconds between two tries to make the store
_told: list[int] = []  # the signal that ends the service, also where its exception was lost


class Stopped(BaseException):
    """A signal ends the service."""


@click.command()
@click.option("--name", metavar="N", help="Its name; by default the host's and the process's.")
@click.option(
    "--every", type=click.FloatRange(0, 3600), default=0.2, show_default=True, metavar="S"
)
@click.option("--lease", type=click.FloatRange(1, 600), default=3.0, show_default=True, metavar="S")
@click.option("--stuck", type=click.FloatRange(1), default=30.0, show_default=True, metavar="S")
@click.option("--history", type=click.FloatRange(1), default=300.0, show_default=True, metavar="S")
@click.option("--metrics", "port", type=click.IntRange(1, 65535), metavar="PORT")
@click.pass_obj
def command(
    session: Session,
    name: str | None,
    every: float,
    lease: float,
    stuck: float,
    history: float,
    port: int | None,
) -> None:
    """Run an allocator: it campaigns for the lead, and while it leads it posts tables.

    A table comes at most each --every seconds, when something has changed. Others stand by; one of
    them leads once the --lease of the leader has ended, or deletes a leader that leaves a report
    unposted for --stuck seconds. A store of SQLite keeps --history seconds of its history; etcd
    keeps what its members are told to. --metrics serves /metrics on the loopback.

    SIGTERM gives the lead away at once.
    """
    log_to_standard_error(logging.INFO)
    own = plain_name(name or _default_name(), "an allocator's name")
    settings = Settings(own, find_program("bwe-live"), every, lease, stuck)
    session.say_how_it_speaks()
    metrics = Metrics()
    if port is not None:
        metrics.serve(port)
    for one in (signal.SIGTERM, signal.SIGINT):
        signal.signal(one, _stop)
    with ExitStack() as behind:
        try:
            _make_store(session, metrics)
            if session.store.startswith("sqlite:"):
                behind.callback(Compaction(session.open, history).stop)
            service = Service(session.open, session.keys, settings, metrics)
            behind.callback(service.close)
            service.run(lambda: bool(_told))
        except Stopped:
            pass
    sys.stderr.flush()
    os._exit(0)  # calls to a store that is away are not waited for


def _make_store(session: Session, metrics: Metrics) -> None:
    """Makes the store's folder where it is not there; waits where this user cannot."""
    trouble = Trouble()
    while not _told:
        try:
            return session.open(makes_folder=True).close()
        except StoreError as fault:
            metrics.refuses.set(1)
            if trouble.is_new(str(fault)):
                log.error("%s", fault)
            time.sleep(PAUSE)


def _default_name() -> str:
    host = "".join(it if it.isalnum() or it in "-_." else "-" for it in socket.gethostname())
    return f"{host.encode('ascii', 'replace').decode().replace('?', '-')[:50]}-{os.getpid()}"


def _stop(number: int, frame: FrameType | None) -> None:
    for one in (signal.SIGTERM, signal.SIGINT):
        signal.signal(one, signal.SIG_IGN)
    _told.append(number)
    raise Stopped
