"""The link watcher: what it reports of devices, files and drains, and what it keeps in doubt."""

from __future__ import annotations

import os
import time
from dataclasses import dataclass, field
from pathlib import Path

import pytest

from bwe_control.agent.exchange import Report
from bwe_control.agent.faults import ConfigError
from bwe_control.client import Limits
from bwe_control.link_watch.config import read_watch_config
from bwe_control.link_watch.watch import Watcher

from .control_plane import Leader, bwe_control, eventually
from .hosts import Hosts

FILE = '[link.ab]\nfile = "links.prom"\nseries = \'if_speed{link="ab"}\'\n'


@dataclass
class Told:
    """An exchange that keeps what it is told."""

    before: Report | None = field(default_factory=Report)
    reports: list[dict[str, int]] = field(default_factory=list)
    is_connected: bool = True

    def limits(self) -> Limits | None:
        return None

    def reported(self) -> Report | None:
        return self.before

    def report(self, report: Report) -> None:
        self.reports.append(report.capacities)


def watcher(folder: Path, text: str, told: Told) -> Watcher:
    path = folder / "watch.toml"
    path.write_text('reporter = "noc"\n' + text)
    return Watcher(read_watch_config(path), told)


def test_a_series_of_a_file_is_reported_when_it_changes(tmp_path: Path) -> None:
    told = Told()
    watch = watcher(tmp_path, FILE, told)
    file = tmp_path / "links.prom"
    for speed in ("4e+07", "4e+07", "2e+07 1700000000", "0"):
        file.write_text(
            f'# HELP if_speed bit/s\nif_speed{{link="abc"}} 7\nif_speed{{link="ab"}} {speed}\n'
        )
        watch.look()
    assert told.reports == [{"ab": 38_800}, {"ab": 19_400}, {"ab": 0}]


def test_what_was_reported_stays_while_the_file_is_of_no_use(
    tmp_path: Path, caplog: pytest.LogCaptureFixture
) -> None:
    told = Told(Report(capacities={"ab": 38_800, "other": 5}))
    watch = watcher(tmp_path, FILE, told)
    file = tmp_path / "links.prom"
    for text in (None, "", 'if_speed{link="ab"} fast\n', 'if_speed{link="ab"} -1\n', "\0\n"):
        if text is not None:
            file.write_text(text)
        watch.look()
    file.write_text('if_speed{link="ab"} 1e6\n')
    os.utime(file, (time.time() - 1000, time.time() - 1000))
    watch.look()
    assert told.reports == [{"ab": 38_800}]
    for words in ("cannot be read", "no series", "no number", "no speed", "1000 seconds ago"):
        assert words in caplog.text


def test_nothing_is_reported_before_the_store_has_answered(tmp_path: Path) -> None:
    told = Told(None)
    (tmp_path / "links.prom").write_text('if_speed{link="ab"} 1e6\n')
    watcher(tmp_path, FILE, told).look()
    assert told.reports == []


def test_a_drained_link_is_reported_with_0_until_its_name_is_taken_out(tmp_path: Path) -> None:
    told = Told()
    watch = watcher(tmp_path, 'drains = "drains"\npart = 100\n' + FILE, told)
    (tmp_path / "links.prom").write_text('if_speed{link="ab"} 1e6\n')
    for drains in (None, "# none yet\n", "ab  # a fibre is spliced\n", ""):
        if drains is not None:
            (tmp_path / "drains").write_text(drains)
        watch.look()
    assert told.reports == [{"ab": 1000}, {"ab": 0}, {"ab": 1000}]


def test_a_device_that_goes_down_is_reported_with_0(hosts: Hosts, tmp_path: Path) -> None:
    path = tmp_path / "watch.toml"
    text = '[link.ab]\ndevice = "wan"\n[link.ba]\ndevice = "wan"\nspeed = 1000\n'
    path.write_text('reporter = "host-a"\nevery = 0.1\n' + text)
    leader = Leader(tmp_path / "store")
    words = bwe_control("--store", leader.name, "watch-link", str(path))
    hosts.start("a", *words, log=tmp_path / "log")
    up, down = {"ab": 9_700_000, "ba": 970}, {"ab": 0, "ba": 0}
    eventually(lambda: leader.reported() == up, "the device is up")
    hosts.run("b", *"ip link set wan down".split())
    eventually(lambda: leader.reported() == down, "the other end is down")
    hosts.run("b", *"ip link set wan up".split())
    eventually(lambda: leader.reported() == up, "the device is up again")


@pytest.mark.parametrize(
    ("text", "fault"),
    [
        ("", "link: this key is missing"),
        ("[link]\n", "link: there is no link to watch"),
        ("[link.ab]\n", "link.ab.file: this key is missing"),
        (FILE + 'unit = "bps"\n', "link.ab.unit: has to be one of bit/s, kbit/s"),
        (FILE + 'device = "eth0"\n', "link.ab.file: there is no such key"),
        ("part = 101\n" + FILE, "part: has to be a whole number from 1 to 100"),
        ("every = 0.0\n" + FILE, "every: has to be from 0.1"),
    ],
)
def test_a_fault_is_one_sentence_with_its_place(tmp_path: Path, text: str, fault: str) -> None:
    with pytest.raises(ConfigError, match="^[^\n]*$") as caught:
        watcher(tmp_path, text, Told())
    assert str(caught.value).startswith(f"{tmp_path}/watch.toml: {fault}")
