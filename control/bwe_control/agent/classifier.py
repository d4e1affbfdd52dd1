"""Keeps the classification in the kernel: the table of nftables, and the cgroups that it names."""

from __future__ import annotations

import logging
import shutil
import struct
import subprocess
from collections.abc import Mapping
from pathlib import Path

from bwe_control.agent.config import Config, Selector
from bwe_control.agent.faults import KernelError
from bwe_control.agent.matches import ruleset, table_name
from bwe_control.agent.netlink import Netlink, attributes
from bwe_control.errors import InputError

log = logging.getLogger(__name__)

NETFILTER = 12
GET_GENERATION = 10 << 8 | 16
NFT_CGROUPS = Path("/sys/fs/cgroup")
SECONDS_OF_NFT = 30


def nft(*arguments: str, script: str | None = None) -> str:
    """What `nft` prints; a KernelError with its first sentence where it fails."""
    if shutil.which("nft") is None:
        raise InputError("the agent needs nft: apt-get install nftables")
    try:
        done = subprocess.run(
            ["nft", *arguments],
            input=script,
            capture_output=True,
            text=True,
            timeout=SECONDS_OF_NFT,
            check=False,
        )
    except subprocess.TimeoutExpired as error:
        raise KernelError(f"nft did not end in {SECONDS_OF_NFT} seconds") from error
    if done.returncode:
        raise KernelError("nft: " + (done.stderr.strip().splitlines() or ["no word why"])[0])
    return done.stdout


def cgroup_mount() -> Path | None:
    """Where cgroup2 is mounted."""
    for line in Path("/proc/self/mounts").read_text().splitlines():
        _, place, kind, *_ = line.split(" ")
        if kind == "cgroup2":
            return Path(place)
    return None


class Classifier:
    """The table of one configuration."""

    def __init__(self, config: Config, minors: Mapping[str, int]) -> None:
        self._config, self._minors = config, minors
        self._mount = cgroup_mount()
        self._netfilter = Netlink(NETFILTER)
        self._cgroups: dict[str, int] = {}
        self._places: dict[str, int] = {}
        self._generation: int | None = None
        self._listing: str | None = None

    def keep(self, places: Mapping[str, int]) -> bool:
        """Puts the table in place where it is not as it has to be; whether others had changed it.

        It is put anew where a cgroup has come, gone or come back, where a task was moved to another
        path group, and where the kernel's rules have changed and the table is another then.
        """
        cgroups = self._present_cgroups()
        is_due = self._listing is None or (cgroups, places) != (self._cgroups, self._places)
        is_changed = not is_due and self._is_changed()
        if is_due or is_changed:
            self._put(cgroups, places)
        return is_changed

    def _put(self, cgroups: dict[str, int], places: Mapping[str, int]) -> None:
        for path in self._cgroups.keys() - cgroups.keys():
            log.warning("cgroup %s is gone: what it sends is not matched till it is back", path)
        for path in cgroups.keys() - self._cgroups.keys():
            log.info("cgroup %s is there", path)
        names = {path: self._nft_name(path) for path in cgroups}
        nft("-f", "-", script=ruleset(self._config, self._minors, places, names))
        self._cgroups, self._places = cgroups, dict(places)
        self._generation = self._current_generation()
        self._listing = self._current_listing()

    def _is_changed(self) -> bool:
        """Whether somebody else has changed the table; its text is read if any rule has changed."""
        generation = self._current_generation()
        if generation == self._generation:
            return False
        self._generation = generation
        return self._current_listing() != self._listing

    def _present_cgroups(self) -> dict[str, int]:
        """The inode of each cgroup that the configuration names and that is there."""
        found = {}
        for task in self._config.tasks:
            if task.match.selector is Selector.CGROUP and self._mount is not None:
                try:
                    found[task.match.value] = (self._mount / task.match.value).stat().st_ino
                except OSError:
                    continue
        return found

    def _nft_name(self, path: str) -> str:
        """nftables looks for a cgroup below /sys/fs/cgroup, wherever cgroup2 is mounted."""
        assert self._mount is not None
        place = self._mount / path
        if not place.is_relative_to(NFT_CGROUPS):
            raise KernelError(f"cgroup2 is mounted at {self._mount}, where nft does not find it")
        return str(place.relative_to(NFT_CGROUPS))

    def _current_generation(self) -> int:
        answer = self._netfilter.get(GET_GENERATION, struct.pack("=BBH", 0, 0, 0))
        if answer is None:
            raise KernelError("the kernel has no nftables")
        return int(struct.unpack(">I", attributes(answer[4:])[1])[0])

    def _current_listing(self) -> str:
        try:
            return nft("list", "table", "inet", table_name(self._config.device))
        except KernelError:
            return ""


def remove_table(device: str) -> bool:
    """Removes the table of a device; whether there was one."""
    name = table_name(device)
    try:
        nft("delete", "table", "inet", name)
    except KernelError as error:
        if "No such file or directory" in str(error):
            return False
        raise
    return True
