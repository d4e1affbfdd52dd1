"""Tells systemd how a service fares, where it runs under it."""

from __future__ import annotations

import os
import socket


def notify(text: str) -> None:
    """Sends lines as `READY=1` or `STATUS=..`; does nothing where nobody listens."""
    path = os.environ.get("NOTIFY_SOCKET")
    if not path:
        return
    address = "\0" + path[1:] if path.startswith("@") else path
    with socket.socket(socket.AF_UNIX, socket.SOCK_DGRAM) as to:
        try:
            to.connect(address)
            to.sendall(text.encode())
        except OSError:
            return  # the manager restarts, and a service goes on without it
