"""Writes the run of a deployment."""

from __future__ import annotations

import sys

import click

from bwe_control.replay import replay
from bwe_control.session import Session


@click.command()
@click.pass_obj
def command(session: Session) -> None:
    """Write the run of this deployment as an input of `bwe audit`.

    It is made of the history that the store keeps: the reports, each at its revision, and each
    posting as what a reader saw, for the document of the table that is posted.

    \b
        bwe-control replay | bwe audit
    """
    sys.stdout.buffer.write(replay(session.open(), session.keys))
    sys.stdout.buffer.flush()
