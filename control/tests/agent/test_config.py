"""Configurations: what is read, and that each fault is one sentence with its place."""

from __future__ import annotations

from pathlib import Path

import pytest

from bwe_control.agent.config import Mode, Selector, read_config
from bwe_control.agent.faults import ConfigError

HEAD = 'device = "eth0"\nreporter = "a"\nmode = "enforce"\n'
TASK = '[task.web]\nto = ["10.1.0.0/16"]\n'


def written(folder: Path, text: str) -> Path:
    path = folder / "agent.toml"
    path.write_text(text)
    return path


def test_a_small_configuration_has_defaults(tmp_path: Path) -> None:
    config = read_config(written(tmp_path, HEAD + TASK))
    assert (config.mode, config.every, config.window, config.headroom) == (
        Mode.ENFORCE,
        1.0,
        4,
        115,
    )
    assert (config.least, config.initial, config.take_root) == (64, 1000, False)
    assert config.state == Path("/var/lib/bwe-agent/eth0.json")
    assert [task.name for task in config.tasks] == ["web"]


def test_each_kind_of_match_is_read(tmp_path: Path) -> None:
    lines = ['user = "0"', 'port = "udp 443"', "mark = 0x10", 'cgroup = "/system.slice/x.service/"']
    text = HEAD + TASK + "paths = [1, 2]\n"
    for number, line in enumerate(lines):
        text += f'[task.t{number}]\nto = ["fd00::/8", "10.0.0.0/8"]\n{line}\n'
    first, *others = read_config(written(tmp_path, text)).tasks
    assert (first.marks, first.match.selector, first.match.value) == ((1, 2), Selector.NOTHING, "")
    assert [(task.match.selector, task.match.value) for task in others] == [
        (Selector.USER, "0"),
        (Selector.PORT, "udp 443"),
        (Selector.MARK, "16"),
        (Selector.CGROUP, "system.slice/x.service"),
    ]


FAULTS = {
    "device = eth0": "no TOML",
    HEAD.replace("eth0", "an unheard-of name") + TASK: "device: has to be the name of a network",
    HEAD.replace("enforce", "limit") + TASK: 'mode: has to be "observe" or "enforce"',
    HEAD.replace('"a"', "7") + TASK: "reporter: has to be the name of a reporter, and is 7",
    HEAD.replace('"a"', '"a b"') + TASK: "reporter: has to be the name of a reporter, and is 'a b'",
    'mode = "enforce"\n' + TASK: "device: this key is missing",
    HEAD: "task: this key is missing",
    HEAD + "[task]": "task: 0 tasks",
    HEAD + "every = 0" + "\n" + TASK: "every: has to be from 0.1 to 60 seconds, and is 0.0",
    HEAD + 'every = "1"\n' + TASK: "every: has to be a number of seconds, and is '1'",
    HEAD + "least = 7\n" + TASK: "least: has to be a whole number from 8",
    HEAD + "least = 64.0\n" + TASK: "least: has to be a whole number from 8",
    HEAD + "least = 2000\ninitial = 1000\n" + TASK: "initial: 1000 is below the floor",
    HEAD + "headroom = 99\n" + TASK: "headroom: has to be a whole number from 100",
    HEAD + "window = 0\n" + TASK: "window: has to be a whole number from 1",
    HEAD + "metrics = 65536\n" + TASK: "metrics: has to be a whole number",
    HEAD + "floor = 7\n" + TASK: "floor: there is no such key",
    HEAD + "[task.web]\n": "task.web.to: this key is missing; it is a list of prefixes",
    HEAD + "[task.web]\nto = []\n": "task.web.to: a task needs a prefix",
    HEAD + '[task.web]\nto = ["10.1.0.1/16"]\n': "task.web.to[0]: no prefix: 10.1.0.1/16 has host",
    HEAD + '[task.web]\nto = ["10.1.0.0/16", 7]\n': "task.web.to[1]: no prefix",
    HEAD + '[task."a b"]\nto = ["10.1.0.0/16"]\n': "task.a b: a task's name is 1 to 64",
    HEAD + "[task]\nweb = 7\n": "task.web: has to be a table",
    HEAD + TASK + 'user = "nobody-of-this-host"\n': "task.web.user: this host has no user",
    HEAD + TASK + 'port = "443"\n': 'task.web.port: has to be as "tcp 443"',
    HEAD + TASK + 'port = "tcp 65536"\n': "task.web.port: 65536 is no port",
    HEAD + TASK + "mark = 0\n": "task.web.mark: a mark is a whole number from 1",
    HEAD + TASK + 'mark = 1\nuser = "0"\n': "task.web.mark: one match has user and mark",
    HEAD + TASK + 'cgroup = "a b"\n': "task.web.cgroup: has to be a path",
    HEAD + TASK + 'paths = [1, "2"]\n': "task.web.paths[1]: a mark is a whole number",
    HEAD + TASK + 'way = "x"\n': "task.web.way: there is no such key",
    HEAD + TASK + TASK.replace("web", "copy"): "task.copy.to: 10.1.0.0/16 is matched by task web",
}


@pytest.mark.parametrize("text", FAULTS, ids=range(len(FAULTS)))
def test_a_fault_is_one_sentence_with_its_place(tmp_path: Path, text: str) -> None:
    path = written(tmp_path, text)
    with pytest.raises(ConfigError) as caught:
        read_config(path)
    assert str(caught.value).startswith(f"{path}: {FAULTS[text]}")
    assert "\n" not in str(caught.value)


def test_a_file_that_is_not_there_is_one_sentence(tmp_path: Path) -> None:
    with pytest.raises(ConfigError, match="agent.toml: No such file or directory$"):
        read_config(tmp_path / "agent.toml")
