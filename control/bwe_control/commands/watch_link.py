"""Runs the link watcher."""

from __future__ import annotations

import logging
from pathlib import Path

import click

from bwe_control.link_watch.config import read_watch_config
from bwe_control.link_watch.service import run_watcher
from bwe_control.session import Session, log_to_standard_error


@click.command("watch-link")
@click.argument("config", type=click.Path(dir_okay=False, path_type=Path))
@click.pass_obj
def command(session: Session, config: Path) -> None:
    """Report the capacity of links as devices, or files of exporters, have it.

    A link that is down has capacity 0, and one that cannot be looked up keeps what was reported of
    it last. CONFIG is a file of TOML; docs/OPERATING.md has its keys. Runs until SIGTERM.
    """
    log_to_standard_error(logging.INFO)
    settings = read_watch_config(config)
    session = session.or_else(settings.store, settings.network)
    session.say_how_it_speaks()
    run_watcher(settings, session.open, session.keys)
