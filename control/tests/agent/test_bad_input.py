"""What can be wrong on a host: one sentence each, and what was in force stays."""

from __future__ import annotations

import os
import shutil
import subprocess
from collections.abc import Callable, Iterator
from pathlib import Path

import pytest

from bwe_control.agent import service
from bwe_control.agent.classifier import cgroup_mount
from bwe_control.agent.faults import KernelError
from bwe_control.agent.netlink import Netlink

from .control_plane import AgentChild, Leader, bwe_control, eventually
from .hosts import PYTHON, Hosts

WEB = '[task.web]\nto = ["10.41.0.0/25", "fd41::/64"]\n'
COPY = '[task.copy]\nto = ["10.41.0.128/25"]\n'
Makes = Callable[..., AgentChild]


@pytest.fixture
def leader(tmp_path: Path) -> Leader:
    return Leader(tmp_path / "store")


@pytest.fixture
def makes(hosts: Hosts, tmp_path: Path, leader: Leader) -> Makes:
    """Makes an agent of these tasks and keys, which has not started, for a user."""

    def make(tasks: str = WEB + COPY, user: str = "root", **keys: object) -> AgentChild:
        keys.setdefault("every", 0.1)
        return AgentChild(hosts, tmp_path, leader, tasks, user, **keys)

    return make


def refusal(hosts: Hosts, *words: str, before: tuple[str, ...] = ()) -> str:
    """The one sentence with which a command ends, with exit status 2."""
    done = subprocess.run(
        hosts.command("a", *before, *bwe_control(*words)),
        capture_output=True,
        text=True,
        check=False,
        timeout=60,
        env={**os.environ, "PYTHONPATH": str(Path(__file__).resolve().parents[2])},
    )
    assert done.returncode == 2, done
    lines = done.stderr.strip().splitlines()
    assert "Traceback" not in done.stderr
    return lines[-1]


def test_a_device_that_is_not_there(hosts: Hosts, makes: Makes) -> None:
    agent = makes(device="eth7")
    assert "device eth7: there is none on this host" in refusal(hosts, "agent", str(agent.config))


def test_a_second_agent_of_one_state(hosts: Hosts, makes: Makes) -> None:
    agent = makes()
    agent.start()
    sentence = refusal(hosts, "agent", str(agent.config))
    assert "state.json runs already" in sentence


def test_a_state_or_a_port_that_cannot_be_had(hosts: Hosts, makes: Makes) -> None:
    agent = makes()
    agent.config.write_text(agent.config.read_text().replace('"state.json"', '"/dev/null/x/state"'))
    sentence = refusal(hosts, "agent", str(agent.config))
    assert "state: /dev/null/x/state.lock: Not a directory" in sentence
    sentence = refusal(
        hosts,
        "agent",
        str(makes(metrics=1).config),
        before=("setpriv", "--bounding-set=-net_bind_service"),
    )
    assert "metrics: port 1: Permission denied" in sentence


def test_a_root_of_somebody_else_stays_without_a_word(hosts: Hosts, makes: Makes) -> None:
    hosts.run(
        "a", *"tc qdisc add dev wan root handle 7: tbf rate 1gbit burst 1mb limit 1mb".split()
    )
    sentence = refusal(hosts, "agent", str(makes().config))
    assert "the root qdisc tbf 7: is somebody else's and stays" in sentence
    assert "qdisc tbf 7: root" in hosts.run("a", *"tc qdisc show dev wan".split())
    makes(take_root=True).start()
    assert "qdisc htb b3e: root" in hosts.run("a", *"tc qdisc show dev wan".split())


def test_without_the_capability_nothing_is_touched(hosts: Hosts, makes: Makes) -> None:
    before = ("setpriv", "--bounding-set=-net_admin", "--inh-caps=-net_admin")
    sentence = refusal(hosts, "agent", str(makes().config), before=before)
    assert "the agent needs CAP_NET_ADMIN, and this process does not have it" in sentence
    assert "htb" not in hosts.run("a", *"tc qdisc show dev wan".split())


def test_the_capability_alone_is_enough(hosts: Hosts, makes: Makes, leader: Leader) -> None:
    agent = makes(user="nobody")
    agent.start()
    agent.wait_for(leader.post({"web": 3000, "copy": 2000}))
    assert agent.rates() == {"web": 3000, "copy": 2000}
    eventually(lambda: leader.reported() == {"web": 0, "copy": 0}, "demands are reported")


def test_a_kernel_without_htb(monkeypatch: pytest.MonkeyPatch, hosts: Hosts) -> None:
    monkeypatch.setattr(service, "has_kind", lambda netlink, kind: kind != "htb")
    with pytest.raises(KernelError, match=r"this kernel has no HTB \(CONFIG_NET_SCH_HTB\)"):
        service.require_kernel(Netlink())


def test_a_task_that_the_table_does_not_have_keeps_its_limit(makes: Makes, leader: Leader) -> None:
    agent = makes()
    agent.start()
    agent.wait_for(leader.post({"web": 3000, "copy": 2000}))
    agent.wait_for(leader.post({"web": 4000, "other": 1}))
    assert agent.rates() == {"web": 4000, "copy": 2000}
    assert "task copy has no limit in the table: it keeps the one that it has" in agent.text()


def test_limits_older_than_those_in_force_are_refused(makes: Makes, leader: Leader) -> None:
    agent = makes()
    agent.start()
    agent.wait_for(leader.post({"web": 3000, "copy": 2000}, prefix=9))
    agent.kill()
    leader.post({"web": 64, "copy": 64}, prefix=8)
    agent.start()
    eventually(lambda: "of prefix 8 are older than those in force, of 9" in agent.text(), "refused")
    assert agent.rates() == {"web": 3000, "copy": 2000}


def test_limit_0_is_the_floor_and_a_limit_above_the_device_is_said(
    makes: Makes, leader: Leader
) -> None:
    agent = makes(least=300)
    agent.start()
    agent.wait_for(leader.post({"web": 0, "copy": 20_000_000}))
    assert agent.rates() == {"web": 300, "copy": 20_000_000}
    assert "task copy: its limit of 20000000 kb/s is above the 10000000 of wan" in agent.text()


def test_what_others_change_is_set_back(hosts: Hosts, makes: Makes, leader: Leader) -> None:
    agent = makes()
    agent.start()
    agent.wait_for(leader.post({"web": 3000, "copy": 2000}))
    classes = agent.classes()
    name = next(line.split()[2] for line in classes.splitlines() if "3Mbit" in line)
    hosts.run("a", *f"tc class change dev wan parent b3e: classid {name} htb rate 9mbit".split())
    eventually(lambda: agent.rates()["web"] == 3000, "the class is set back")
    hosts.run("a", *f"tc class delete dev wan classid {name}".split())
    eventually(lambda: agent.classes().count("class htb") == 3, "the class is made again")
    hosts.run("a", *"nft flush table inet bwe_wan".split())
    eventually(lambda: "by_to_4" in listed(hosts, "return"), "the table is put back")
    hosts.run("a", *"tc qdisc delete dev wan root".split())
    eventually(lambda: agent.classes().count("class htb") == 3, "the root is made again")
    assert agent.rates() == {"web": 3000, "copy": 2000}


def listed(hosts: Hosts, part: str) -> str:
    """The lines of the agent's table with this part."""
    text = hosts.run("a", *"nft list table inet bwe_wan".split())
    return "".join(line for line in text.splitlines() if part in line)


def test_a_device_that_goes_and_comes_back(hosts: Hosts, makes: Makes, leader: Leader) -> None:
    agent = makes()
    agent.start()
    agent.wait_for(leader.post({"web": 3000, "copy": 2000}))
    hosts.run("a", *"ip link set wan name away".split())
    eventually(lambda: "device wan: there is none on this host; what is" in agent.text(), "gone")
    hosts.run("a", *"ip link set away name wan".split())
    agent.wait_for(leader.post({"web": 5000, "copy": 2000}))
    assert agent.rates() == {"web": 5000, "copy": 2000}


@pytest.fixture
def cgroup() -> Iterator[Path]:
    """A cgroup that is not there yet."""
    mount = cgroup_mount()
    if mount is None or not os.access(mount, os.W_OK):
        pytest.skip("cgroup2 is not mounted, or cannot be written")
    path = mount / f"bwe-test-{os.getpid()}"
    yield path
    if path.is_dir():
        path.rmdir()


def test_a_cgroup_that_goes_and_comes_is_matched_again(
    hosts: Hosts, makes: Makes, leader: Leader, cgroup: Path
) -> None:
    agent = makes(f'[task.web]\nto = ["10.41.0.0/24"]\ncgroup = "{cgroup.name}"\n')
    agent.start()
    for number in range(2):
        cgroup.mkdir()
        eventually(lambda: agent.text().count("is there") > number, "the cgroup is seen")
        before = agent.sent()["web"]
        send_in(hosts, cgroup)
        assert agent.sent()["web"] > before
        cgroup.rmdir()
        eventually(lambda: agent.text().count("is gone") > number, "its end is seen")


def send_in(hosts: Hosts, cgroup: Path) -> None:
    """A datagram to host `b` from a process in the cgroup."""
    code = (
        "import os, socket; from pathlib import Path;"
        f"Path('{cgroup}/cgroup.procs').write_text(str(os.getpid()));"
        "socket.socket(socket.AF_INET, socket.SOCK_DGRAM).sendto(b'x', ('10.41.0.2', 9))"
    )
    hosts.run("a", PYTHON, "-c", code)


def test_observing_measures_and_holds_nothing_back(makes: Makes, leader: Leader) -> None:
    agent = makes(mode="observe")
    agent.start()
    agent.wait_for(leader.post({"web": 3000, "copy": 2000}))
    assert agent.rates() == {"web": 10**12, "copy": 10**12}
    eventually(lambda: leader.reported() == {"web": 0, "copy": 0}, "demands are reported")


def test_check_tries_each_match_and_changes_nothing(hosts: Hosts, makes: Makes) -> None:
    kinds = [
        "",
        'cgroup = "none/of/this/name"',
        'user = "nobody"',
        'port = "tcp 443"',
        'port = "udp 443"',
        "mark = 7",
    ]
    tasks = "".join(
        f'[task.t{number}]\nto = ["10.0.0.0/8", "fd00::/8"]\n{kind}\n'
        for number, kind in enumerate(kinds)
    )
    agent = makes(tasks)
    before = hosts.run("a", *"nft list ruleset".split())
    child = hosts.start("a", *bwe_control("agent", "check", str(agent.config)))
    answer, _ = child.communicate()
    assert child.returncode == 0, answer
    assert answer.count("a packet of it lands in its class") == 2 * (len(kinds) - 1)
    assert answer.count("not tried: its cgroup is not there") == 2
    assert hosts.run("a", *"nft list ruleset".split()) == before
    assert "htb" not in hosts.run("a", *"tc qdisc show dev wan".split())


def test_clear_leaves_the_host_as_it_was(hosts: Hosts, makes: Makes, leader: Leader) -> None:
    shown = ("ip -d link show wan", "tc qdisc show dev wan", "nft list ruleset")
    before = [hosts.run("a", *words.split()) for words in shown]
    agent = makes()
    agent.start()
    agent.wait_for(leader.post({"web": 3000, "copy": 2000}))
    agent.kill()
    assert "gso_max_segs 4 " in hosts.run("a", *shown[0].split())
    hosts.run("a", "env", f"PYTHONPATH={Path(__file__).parents[2]}", *clear(agent))
    assert [hosts.run("a", *words.split()) for words in shown] == before
    assert not agent.config.with_name("state.json").exists()


def clear(agent: AgentChild) -> list[str]:
    return bwe_control("agent", "clear", str(agent.config))


def test_promtool_finds_nothing_in_the_metrics(hosts: Hosts, makes: Makes, leader: Leader) -> None:
    if shutil.which("promtool") is None:
        pytest.skip("there is no promtool: apt-get install prometheus")
    agent = makes(metrics=9101)
    agent.start()
    agent.wait_for(leader.post({"web": 3000, "copy": 2000}))
    page = "http://127.0.0.1:9101/metrics"
    code = f"from urllib.request import urlopen; print(urlopen('{page}').read().decode())"
    text = hosts.run("a", PYTHON, "-c", code)
    assert 'bwe_agent_task_limit_kbps{task="web"} 3000.0' in text
    assert f"bwe_agent_prefix {leader.prefix}.0" in text and "bwe_agent_connected 1.0" in text
    done = subprocess.run(
        ["promtool", "check", "metrics"], input=text, capture_output=True, text=True, check=False
    )
    assert done.returncode == 0, done
