"""The group of commands: each module of bwe_tools.commands has one, under the module's name."""

from __future__ import annotations

import gc
import importlib
import os
import pkgutil
import sys
from typing import NoReturn

import click

from . import commands
from .missing import sentence


class CommandFolder(click.Group):
    """Imports a command only when it is asked for, so that one tool's libraries do not slow
    another.
    """

    def list_commands(self, context: click.Context) -> list[str]:
        return sorted(
            module.name.replace("_", "-") for module in pkgutil.iter_modules(commands.__path__)
        )

    def get_command(self, context: click.Context, name: str) -> click.Command | None:
        if name not in self.list_commands(context):
            return None
        try:
            module = importlib.import_module(f"{commands.__name__}.{name.replace('-', '_')}")
        except ModuleNotFoundError as missing:
            return without_its_package(name, missing)
        command: click.Command = module.command
        return command


def without_its_package(name: str, missing: ModuleNotFoundError) -> click.Command:
    """The command in the help, which says what to install where it is called."""

    def again(words: tuple[str, ...]) -> NoReturn:
        raise missing

    words = click.Argument(["words"], nargs=-1, type=click.UNPROCESSED)
    settings = {"ignore_unknown_options": True, "help_option_names": []}
    return click.Command(
        name, context_settings=settings, callback=again, params=[words], help=sentence(missing)
    )


@click.group(cls=CommandFolder, context_settings={"help_option_names": ["-h", "--help"]})
def group() -> None:
    """Tools beside bwe, for documents that people write and tables that people read.

    A FILE may be - for standard input. Exit status 2 is a fault of the arguments or of a file, with
    one sentence on standard error.
    """


def main() -> None:
    # A great document is a million objects, none of them in a ring: the collector looks seldom.
    gc.set_threshold(1_000_000)
    try:
        try:
            group(prog_name="bwe-tools")
        finally:
            sys.stdout.flush()
    except BrokenPipeError:
        # The reader has gone, as `head` does: there is nobody left to tell.
        leave_output()
        sys.exit(0)
    except OSError as fault:
        leave_output()
        click.echo(f"bwe-tools: the output cannot be written: {fault.strerror}", err=True)
        sys.exit(2)


def leave_output() -> None:
    """What was not written is not tried again at the end."""
    os.dup2(os.open(os.devnull, os.O_WRONLY), sys.stdout.fileno())
