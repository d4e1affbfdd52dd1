"""Opens the store that a text names."""

from __future__ import annotations

import os
from dataclasses import dataclass
from pathlib import Path

from bwe_control.errors import InputError
from bwe_control.store.interface import Store


@dataclass(frozen=True)
class Tls:
    """The files of a client's certificate; all three, or none for plain text."""

    ca: Path
    cert: Path
    key: Path


def state_folder() -> Path:
    """Where this machine keeps the state: of a unit, of root, or of the user."""
    if given := os.environ.get("STATE_DIRECTORY"):
        return Path(given.split(":")[0])
    if os.geteuid() == 0:
        return Path("/var/lib/bwe")
    try:
        return Path(os.environ.get("XDG_STATE_HOME") or Path.home() / ".local/state") / "bwe"
    except RuntimeError:
        raise InputError("this user has no folder: name a store by --store or BWE_STORE") from None


def default_store() -> str:
    """The store where none is named: a folder of this machine."""
    return f"sqlite:{state_folder() / 'control'}"


def open_store(name: str, tls: Tls | None = None, makes_folder: bool = False) -> Store:
    """The store of a name: `sqlite:FOLDER`, or `etcd:HOST:PORT,HOST:PORT,..`.

    With `makes_folder` a folder that is not there is made; else it is StoreAway. An etcd that does
    not answer is found out by the first call.
    """
    kind, _, rest = name.partition(":")
    if kind == "sqlite" and rest:
        from bwe_control.store.sqlite import SqliteStore

        return SqliteStore(Path(rest), makes_folder)
    if kind == "etcd" and rest:
        from bwe_control.store.etcd import EtcdStore, endpoints_of

        return EtcdStore(endpoints_of(rest), tls)
    raise InputError(
        f"a store is named `sqlite:FOLDER` or `etcd:HOST:PORT,HOST:PORT,..`, and not {name!r}"
    )
