"""The cage of a run: namespaces of processes, networks and mounts that end with the run.

Whatever a run starts, mounts or connects stands inside, so nothing of it is left behind, also where
the run is killed.
"""

import os
import shutil
import signal
import subprocess
import sys
import time
from collections.abc import Sequence

from chaos.errors import NotHere

# bash is process 1 inside, since it takes in the orphans of processes that are killed.
INIT = '"$@" <&0 & wait $!; exit $?'
PATIENCE = 120.0  # seconds that a run has to end by itself once it was told to


def check() -> None:
    """Raises NotHere where this machine can make no cage."""
    if os.geteuid() != 0:
        raise NotHere("chaos makes namespaces of its own, which takes root")
    for tool, package in (("unshare", "util-linux"), ("ip", "iproute2"), ("nft", "nftables")):
        if shutil.which(tool) is None:
            raise NotHere(f"chaos needs the command {tool}: apt-get install {package}")
    tried = subprocess.run(
        ["unshare", "--pid", "--net", "--mount", "--fork", "true"], capture_output=True, check=False
    )
    if tried.returncode != 0:
        raise NotHere("this kernel or container lets nobody make namespaces")


def run_inside(plays: Sequence[Sequence[str]]) -> list[int]:
    """Runs this program once for each list of arguments, each in a cage; their statuses.

    An interrupt tells the runs to stop, and some time later ends them.
    """
    check()
    children = [start(arguments) for arguments in plays]
    told: list[int] = []
    for name in (signal.SIGINT, signal.SIGTERM, signal.SIGHUP):
        signal.signal(name, lambda number, _: told.append(number))
    try:
        while any(child.poll() is None for child in children) and not told:
            time.sleep(0.2)
        for child in children:
            assert child.stdin is not None
            child.stdin.close()
        return [finish(child) for child in children]
    finally:
        for child in children:
            child.kill()
            child.wait()


def start(arguments: Sequence[str]) -> "subprocess.Popen[bytes]":
    command = ["unshare", "--pid", "--net", "--mount", "--fork", "--mount-proc"]
    command += ["--kill-child=KILL", "bash", "-c", INIT, "init"]
    command += [sys.executable, "-m", "chaos", *arguments]
    return subprocess.Popen(
        command,
        stdin=subprocess.PIPE,  # its end tells the run to stop
        start_new_session=True,
    )


def finish(child: "subprocess.Popen[bytes]") -> int:
    """The exit status of a run, which has some time to end once its input is closed."""
    try:
        return child.wait(timeout=PATIENCE)
    except subprocess.TimeoutExpired:
        return 1


def settle() -> None:
    """Makes the cage ready from inside: a loopback that is up, a folder /run of its own."""
    subprocess.run(["mount", "-t", "tmpfs", "none", "/run"], check=True)
    subprocess.run(["ip", "link", "set", "lo", "up"], check=True)
    os.mkdir("/run/netns")
