"""Puts the document of a network."""

from __future__ import annotations

from pathlib import Path

import click

from bwe_control.client import put_value
from bwe_control.errors import InputError
from bwe_control.network import network_of
from bwe_control.programs import check_document
from bwe_control.session import Session, standard_input


@click.command()
@click.argument("document")
@click.option("--users", is_flag=True, help="Make the roles and users of etcd as well.")
@click.pass_obj
def command(session: Session, document: str, users: bool) -> None:
    """Put DOCUMENT, a file or - for standard input, as that of the network.

    `bwe` checks it first, and its script has to be empty. Writes `put R`, the revision.

    With --users it also makes the users NETWORK:operator, NETWORK:allocator and, for each reporter
    of the document, NETWORK:reporter:NAME, each with its role, and turns on the authentication of
    etcd. The names are those of client certificates (CN); this one has to be root's.
    """
    text = _read(document)
    check_document(text)
    network = network_of(0, text)
    store = session.open(makes_folder=True)
    revision = put_value(store, session.keys.document, text, "the document")
    print(f"put {revision}", flush=True)
    if users:
        from bwe_control.store.etcd_users import make_users

        for line in make_users(session.store, session.tls, session.keys, network.reporters):
            print(line, flush=True)


def _read(name: str) -> bytes:
    if name == "-":
        return standard_input().read()
    try:
        return Path(name).read_bytes()
    except OSError as fault:
        raise InputError(f"{name} cannot be read: {fault.strerror}") from None
