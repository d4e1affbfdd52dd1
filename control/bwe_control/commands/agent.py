"""Runs the host agent, tries its configuration, and takes away what it made."""

from __future__ import annotations

import logging
import sys
from pathlib import Path

import click

from bwe_control.agent.check import check
from bwe_control.agent.config import read_config
from bwe_control.agent.service import clear, move, run_agent
from bwe_control.errors import InputError
from bwe_control.session import Session, log_to_standard_error


class AgentGroup(click.Group):
    """`agent CONFIG` runs an agent: what is no command of the group is a configuration."""

    def parse_args(self, context: click.Context, args: list[str]) -> list[str]:
        if args and args[0] not in self.commands and not args[0].startswith("-"):
            args.insert(0, "run")
        return super().parse_args(context, args)


config_argument = click.argument("config", type=click.Path(dir_okay=False, path_type=Path))


@click.group(cls=AgentGroup)
def command() -> None:
    """Measure what this host's tasks send, and keep them to their limits.

    `agent CONFIG` runs until SIGTERM; what is in force stays then, and a new start adopts it.
    CONFIG is a file of TOML; docs/OPERATING.md has its keys. The agent needs CAP_NET_ADMIN.

    \b
        bwe-control agent check /etc/bwe/agent.toml
        bwe-control agent /etc/bwe/agent.toml
    """


@command.command("run", hidden=True)
@config_argument
@click.pass_obj
def run_command(session: Session, config: Path) -> None:
    """Run the agent of a configuration."""
    log_to_standard_error(logging.INFO)
    settings = read_config(config)
    session = session.or_else(settings.store, settings.network)
    session.say_how_it_speaks()
    run_agent(settings, session.open, session.keys)


@command.command("check")
@config_argument
def check_command(config: Path) -> None:
    """Say what this host has and what will be used, and try each match with a packet.

    Packets are sent in a network namespace of their own, and nothing of the host is changed. Exit
    status 1 where the agent could not run, or a packet does not land in the class of its task.
    """
    is_good = True
    for finding in check(read_config(config)):
        click.echo(finding)
        is_good = is_good and finding.is_good
    sys.exit(0 if is_good else 1)


@command.command("clear")
@config_argument
def clear_command(config: Path) -> None:
    """Take the agent's classes, table and files away; nothing is limited from then on."""
    for sentence in clear(read_config(config)):
        click.echo(sentence)


@command.command("move")
@config_argument
@click.argument("moves", nargs=-1, required=True, metavar="TASK=NUMBER...")
def move_command(config: Path, moves: tuple[str, ...]) -> None:
    """Let the packets of TASK go by its path group of that NUMBER, from 0.

    They get that one's mark of `paths` in CONFIG, which the host's routes send another way. All
    moves are one change in the kernel.
    """
    places = {}
    for text in moves:
        task, _, place = text.rpartition("=")
        if not place.isdecimal():
            raise InputError(f"a move is TASK=NUMBER, as web=1, and not {text!r}")
        places[task] = int(place)
    move(read_config(config), places)
