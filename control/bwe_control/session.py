"""What all commands share: which store, which network, and how a log line looks."""

from __future__ import annotations

import logging
import sys
from dataclasses import dataclass, replace
from typing import BinaryIO

import click

from bwe_control.errors import InputError
from bwe_control.keys import Keys
from bwe_control.store.interface import Store
from bwe_control.store.opening import Tls, open_store

log = logging.getLogger(__name__)


@dataclass(frozen=True)
class Session:
    """The store and the network that the options name."""

    store: str
    keys: Keys
    tls: Tls | None = None

    def open(self, makes_folder: bool = False) -> Store:
        """The store, for one thread."""
        return open_store(self.store, self.tls, makes_folder)

    def or_else(self, store: str | None, network: str | None) -> Session:
        """This session, with a configuration's store and network where no option names another."""
        given = click.get_current_context().find_root()
        source = click.core.ParameterSource.DEFAULT
        if store is not None and given.get_parameter_source("store") == source:
            self = replace(self, store=store)
        if network is not None and given.get_parameter_source("network") == source:
            self = replace(self, keys=Keys(network))
        return self

    def say_how_it_speaks(self) -> None:
        """Says once that nothing is encrypted, where that is so."""
        if self.store.startswith("etcd:") and self.tls is None:
            log.warning("speaks plain text to the store: anybody on its network may read and write")


def standard_input() -> BinaryIO:
    """The bytes of standard input; an InputError where the caller has closed it."""
    if sys.stdin is None:
        raise InputError("there is no standard input")
    return sys.stdin.buffer


def log_to_standard_error(level: int) -> None:
    """One line an event, for a person or for a journal."""
    handler = logging.StreamHandler(sys.stderr)
    handler.setFormatter(_OneLine("%(asctime)s %(levelname)s %(message)s"))
    top = logging.getLogger("bwe_control")
    top.handlers[:], top.level, top.propagate = [handler], level, False


class _OneLine(logging.Formatter):
    """A formatter whose events are one line each."""

    def format(self, record: logging.LogRecord) -> str:
        return super().format(record).replace("\n", " ")
