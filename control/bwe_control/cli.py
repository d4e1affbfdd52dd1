"""The group of commands: each module of bwe_control.commands has one, under the module's name."""

from __future__ import annotations

import importlib
import logging
import os
import pkgutil
import sys
from pathlib import Path

import click

from bwe_control import commands
from bwe_control.errors import ControlError, InputError, OutcomeUnknown
from bwe_control.keys import Keys
from bwe_control.session import Session, log_to_standard_error
from bwe_control.store.opening import Tls, default_store


class CommandFolder(click.Group):
    """Imports a command only when it is asked for, so that one's libraries do not slow another."""

    def list_commands(self, context: click.Context) -> list[str]:
        modules = pkgutil.iter_modules(commands.__path__)
        return sorted(module.name.replace("_", "-") for module in modules)

    def get_command(self, context: click.Context, name: str) -> click.Command | None:
        if name not in self.list_commands(context):
            return None
        module = importlib.import_module(f"{commands.__name__}.{name.replace('-', '_')}")
        command: click.Command = module.command
        return command


@click.group(cls=CommandFolder, context_settings={"help_option_names": ["-h", "--help"]})
@click.option(
    "--store",
    envvar="BWE_STORE",
    metavar="STORE",
    help="sqlite:FOLDER or etcd:HOST:PORT,..; by default a folder of this machine.",
)
@click.option("--network", envvar="BWE_NETWORK", default="main", metavar="NAME", show_default=True)
@click.option("--ca", envvar="BWE_CA", type=click.Path(path_type=Path), help="For etcd with TLS.")
@click.option("--cert", envvar="BWE_CERT", type=click.Path(path_type=Path))
@click.option("--key", envvar="BWE_KEY", type=click.Path(path_type=Path))
@click.pass_context
def group(
    context: click.Context,
    store: str | None,
    network: str,
    ca: Path | None,
    cert: Path | None,
    key: Path | None,
) -> None:
    """The control plane of bwe: reports in, limits out, over a store with a history.

    Options may stand in BWE_STORE, BWE_NETWORK, BWE_CA, BWE_CERT and BWE_KEY.

    Exit status: 0 done, 1 lines of a report were refused, 2 an argument, a file or a package, 3 a
    document or report cannot be taken, 4 the store is away or refuses and nothing was done, 5 it is
    not known whether it was done, or what it says cannot be written.
    """
    log_to_standard_error(logging.WARNING)
    if None in (ca, cert, key) and (ca, cert, key) != (None, None, None):
        raise InputError("--ca, --cert and --key are given together, or none of them")
    tls = Tls(ca, cert, key) if ca and cert and key else None
    context.obj = Session(store or default_store(), Keys(network), tls)


def main() -> None:
    """Runs the command of the arguments; a fault is one sentence and an exit status."""
    try:
        group(prog_name="bwe-control")
    except ControlError as fault:
        print(f"bwe-control: {fault}", file=sys.stderr)
        sys.exit(fault.status)
    except BrokenPipeError:
        _write_no_more()
        sys.exit(0)  # the reader has gone, as `head` does: there is nobody left to tell
    except OSError as fault:
        _write_no_more()
        print(f"bwe-control: reading or writing failed: {fault.strerror}", file=sys.stderr)
        sys.exit(OutcomeUnknown.status)


def _write_no_more() -> None:
    """Throws away what standard output has not taken."""
    if sys.stdout is not None:
        os.dup2(os.open(os.devnull, os.O_WRONLY), sys.stdout.fileno())
