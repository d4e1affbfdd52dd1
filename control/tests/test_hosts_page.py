"""The commands of docs/OPERATING.md for three hosts with etcd, run as they stand there.

A host is a network, a name and some folders of its own, all in a cage that ends with the test. The
operator's machine stands beside them. What the page asks a person to do, as copying certificates
to the hosts, the test does; in place of systemd stands the script `systemctl` beside it, and the
packages that `apt-get` is asked for have to be there.
"""

import os
import re
import shutil
import subprocess
import tempfile
import time
from concurrent.futures import ThreadPoolExecutor
from importlib.util import find_spec
from pathlib import Path

import pytest
from deployment import PROGRAM, ROOT, TWO_FIBRES, built, needs_bwe, needs_live

HERE = Path(__file__).resolve().parent
HOSTS = ("h1", "h2", "h3")
PACKAGES = ("etcd", "etcdctl", "openssl", "ip", "nsenter", "unshare", "setpriv")
PATIENCE = 90.0  # seconds that a command of the page may take
PROBE = "mount -t tmpfs none /run; ip link add br0 type bridge; hostname h1"
APT = """#!/bin/sh
[ "$1" = install ] && shift && exec dpkg -s "$@" >/dev/null
"""


def why_not():
    """Why this machine cannot stand for hosts; None where it can."""
    if missing := [it for it in PACKAGES if shutil.which(it) is None]:
        return f"there is no {', '.join(missing)}: tools/build/packages"
    if os.geteuid() != 0:
        return "hosts are namespaces, which takes root"
    if missing := [it for it in ("grpc", "etcd3") if find_spec(it) is None]:
        return f"Python has no {', '.join(missing)}: tools/build/packages"
    words = ["unshare", "--pid", "--net", "--mount", "--uts", "--fork", "sh", "-ec", PROBE]
    if subprocess.run(words, capture_output=True, check=False).returncode:
        return "this kernel or container lets nobody make namespaces, mounts or bridges"
    return None


pytestmark = [
    needs_bwe,
    needs_live,
    pytest.mark.skipif(why_not() is not None, reason=str(why_not())),
]


def steps():
    """The commands of each step of the page, as one script for a shell."""
    page = (ROOT / "docs/OPERATING.md").read_text()
    section = page.split("## The control plane on several machines")[1].split("\n### ")[0]
    found = {}
    for step in re.split(r"\n(?=\d\. )", section)[1:]:
        lines = [it[7:] for it in step.splitlines() if it.startswith(" " * 7)]
        found[int(step[0])] = "\n".join(lines) + "\n"
    return found


class Hosts:
    """The hosts of the page, and the machine of the operator, in a cage."""

    def __init__(self):
        """Makes the cage, which ends by itself after ten minutes."""
        self.folder = Path(tempfile.mkdtemp(prefix="bwe-hosts-"))
        self.folder.chmod(0o755)
        words = ["unshare", "--pid", "--net", "--mount", "--uts", "--fork", "--mount-proc"]
        words += ["--kill-child=KILL", "bash", str(HERE / "hosts_cage.bash")]
        self._log = open(self.folder / "log", "wb+")
        self._cage = subprocess.Popen(
            [*words, str(self.folder), str(ROOT)], stdout=self._log, stderr=self._log
        )
        self._wait()
        self.put("bin/apt-get", APT)
        for name in (PROGRAM.name, "control/tests/systemctl"):
            path = f"{self.folder}/tree/{name}"
            self.put(f"bin/{Path(name).name}", f'#!/bin/sh\nexec {path} "$@"\n')
        for variable, crate in (("BWE", "bwe"), ("BWE_LIVE", "bwe_live")):
            self.put(f"bin/{crate}", built(variable, crate).read_bytes())
        self.run("", "mkdir operator && ln -s ../tree/control operator/control")
        self.put("operator/network.json", TWO_FIBRES.read_bytes())

    def _wait(self):
        until = time.monotonic() + PATIENCE
        children = Path(f"/proc/{self._cage.pid}/task/{self._cage.pid}/children")
        while True:
            self._first = children.read_text().split()[:1]
            if self._first and Path(f"/proc/{self._first[0]}/root{self.folder}/ready").exists():
                return
            self._log.seek(0)
            assert self._cage.poll() is None and time.monotonic() < until, self._log.read()
            time.sleep(0.1)

    def put(self, name, content):
        """A file in the folder, as the hosts see it, that anybody may run."""
        given = content if isinstance(content, bytes) else content.encode()
        self.run("", f"cat >{name} && chmod 755 {name}", given)

    def run(self, where, script, given=b"", status=0):
        """What a script of bash writes on a host, or with `operator` on the operator's machine."""
        words = ["nsenter", "-t", self._first[0], "--mount", "--net", "--pid"]
        if where in HOSTS:
            first = f"$(cat {self.folder}/{where}/pid)"
            words += ["sh", "-c", f'exec nsenter -t {first} -m -n -u bash -e -c "$0"']
        else:
            words += ["bash", "-e", "-c"]
        words.append(f"cd {self.folder}/{where}\n{script}")
        path = f"{self.folder}/bin:{os.environ['PATH']}"
        programs = {"BWE": f"{self.folder}/bin/bwe", "BWE_LIVE": f"{self.folder}/bin/bwe_live"}
        kept = {it: value for it, value in os.environ.items() if not it.startswith("BWE")}
        ran = subprocess.run(
            ["timeout", str(PATIENCE), *words],
            input=given,
            capture_output=True,
            check=False,
            env={**kept, **programs, "PATH": path},
        )
        said = ran.stdout.decode() + ran.stderr.decode()
        assert ran.returncode == status, f"{where}: {script}{ran.returncode}: {said}{self._logs()}"
        return said

    def _logs(self):
        """What the allocators said last."""
        paths = [f"{self.folder}/{host}/bwe-control.log" for host in HOSTS]
        words = ["nsenter", "-t", self._first[0], "--mount", "tail", "-n", "20", *paths]
        return subprocess.run(words, capture_output=True, text=True, check=False).stdout

    def copies(self, host, folder, *names):
        """Copies files of the operator's folder `pki` to a host, with their modes."""
        files = " ".join(f"{self.folder}/operator/pki/{it}" for it in names)
        self.run(host, f"cp -p {files} {folder}")

    def close(self):
        self._cage.kill()
        self._cage.wait()
        self._log.close()
        shutil.rmtree(self.folder)


@pytest.fixture
def hosts():
    made = Hosts()
    yield made
    made.close()


def of_host(script, number):
    """The commands for h1 as they are for another host: its name and its address stand first."""
    return script.replace("m1 10.0.0.1 ", f"m{number} 10.0.0.{number} ")


def test_three_hosts_as_typed(hosts):
    page = steps()
    assert sorted(page) == [1, 2, 3, 4, 5, 6] and all(it.strip() for it in page.values())
    for host in HOSTS:
        hosts.run(host, page[1])
    hosts.run("operator", page[2])
    for number, host in enumerate(HOSTS, 1):
        hosts.copies(host, "/etc/etcd", "authority.crt", f"m{number}.crt", f"m{number}.key")
    with ThreadPoolExecutor(len(HOSTS)) as threads:
        scripts = [of_host(page[3], number) for number in range(1, 1 + len(HOSTS))]
        assert len(set(scripts)) == len(HOSTS)
        assert len([*threads.map(hosts.run, HOSTS, scripts)]) == len(HOSTS)
    said = hosts.run("operator", page[4])
    assert said.startswith("put ") and "user main:reporter:hosts\n" in said
    assert said.endswith("authentication is on\n")
    for host in HOSTS[:2]:
        hosts.copies(host, "/etc/bwe", "authority.crt", "main-allocator.crt", "main-allocator.key")
        hosts.run(host, page[5])
    reporter = before_the_last(page[4]) + page[6]
    said = hosts.run("operator", without_following(reporter))
    assert re.search(r"^put \d+\nposted \d+\n", said) and "task pages-0 limit 5000000\n" in said
    may_not(hosts, before_the_last(page[4]), page[6])
    may(hosts, before_the_last(page[4]), page[4])
    goes_on(hosts, reporter)


def before_the_last(script):
    """The commands of a step but for the last one: what they export."""
    return "".join(f"{it}\n" for it in script.splitlines()[:-1])


def without_following(script):
    return script.replace(" --follow", "")


def may_not(hosts, exports, reporter):
    """What a reporter's certificate does not allow, and a client without one."""
    own = exports + "".join(it + "\n" for it in reporter.splitlines() if it.startswith("export"))
    for words in ("init network.json", "limits noc", "report noc </dev/null", "status"):
        assert "permission denied" in hosts.run("operator", f"{own}bwe-control {words}", status=4)
    nobody = exports + "unset BWE_CA BWE_CERT BWE_KEY\nbwe-control limits hosts"
    hosts.run("operator", nobody, status=4)


def may(hosts, exports, users):
    """The operator puts a document, and root's users stay where they are made again."""
    own = "export BWE_CERT=pki/main-operator.crt BWE_KEY=pki/main-operator.key\n"
    said = hosts.run("operator", f"{exports}{own}bwe-control init network.json\nbwe-control status")
    assert said.startswith("put ") and "\nreporter hosts report " in said
    assert "user main:reporter:hosts\n" in hosts.run("operator", users)


def goes_on(hosts, reporter):
    """Without the first host, and then without the allocator that leads, all goes on."""
    hosts.run("h1", "systemctl kill etcd; systemctl kill bwe-control")
    again = without_following(reporter.replace("pages-0 5000000", "pages-0 4000000"))
    assert "task pages-0 limit 4000000\n" in hosts.run("operator", again)
