"""What stands beside the package: types, units, alert rules, manual, completions, certificates."""

import os
import re
import shutil
import subprocess
from pathlib import Path

import pytest
from deployment import PROGRAM, ROOT

CONTROL = ROOT / "control"
UNITS = sorted((CONTROL / "units").glob("*.service"))


def needs(program):
    return pytest.mark.skipif(shutil.which(program) is None, reason=f"there is no {program}")


def run(*words, **more):
    ran = subprocess.run(words, capture_output=True, text=True, timeout=300, check=False, **more)
    return ran.returncode, ran.stdout + ran.stderr


@needs("mypy")
def test_types_are_strict(tmp_path):
    words = ["mypy", "--config-file", "mypy.ini", "--cache-dir", str(tmp_path), "bwe_control"]
    status, said = run(*words, cwd=CONTROL)
    assert status == 0, said


@needs("systemd-analyze")
def test_units_are_verified_and_hardened(tmp_path):
    for unit in UNITS:
        text = re.sub(r"/usr/bin/bwe-control", "/bin/true", unit.read_text())
        (tmp_path / unit.name).write_text(text.replace("Documentation=man:bwe-control(1)\n", ""))
    made = [str(tmp_path / unit.name) for unit in UNITS]
    status, said = run("systemd-analyze", "verify", "--man=no", *made)
    assert (status, said) == (0, "")
    for unit in made:
        words = ["security", "--offline=true", "--threshold=20", "--no-pager", unit]
        status, said = run("systemd-analyze", *words)
        if "Unknown command verb" in said or "unrecognized option" in said:
            pytest.skip("this systemd-analyze has no security of files")
        assert status == 0, said


@needs("promtool")
def test_alert_rules_hold(tmp_path):
    folder = CONTROL / "alerts"
    status, said = run("promtool", "check", "rules", str(folder / "bwe-control.rules.yml"))
    assert status == 0, said
    status, said = run("promtool", "test", "rules", "bwe-control.test.yml", cwd=folder)
    assert status == 0, said


def test_each_alert_has_a_row_on_the_page():
    rules = (CONTROL / "alerts/bwe-control.rules.yml").read_text()
    page = (ROOT / "docs/OPERATING.md").read_text()
    names = re.findall(r"alert: (\w+)", rules)
    assert names and all(f"| `{name}` |" in page for name in names)
    assert set(re.findall(r"^\| `(Bwe\w+)` \|", page, re.M)) == set(names)


def test_the_manual_names_each_command_and_option():
    manual = (ROOT / "man/bwe-control.1").read_text()
    status, said = run(str(PROGRAM), "--help")
    commands = re.findall(r"^  ([a-z-]+)  ", said.split("Commands:")[1], re.M)
    assert status == 0 and len(commands) >= 7
    for name in commands:
        if f".It Cm {name}" not in manual:
            continue  # those of a host have a manual of their own
        options = re.findall(r"^  --([a-z]+)", run(str(PROGRAM), name, "--help")[1], re.M)
        assert all(f"Fl -{it}" in manual for it in options), (name, options)


def test_completions_say_commands_and_options():
    where = {"COMP_WORDS": "bwe-control all", "COMP_CWORD": "1"}
    environment = {**os.environ, **where, "_BWE_CONTROL_COMPLETE": "bash_complete"}
    assert "plain,allocate" in run(str(PROGRAM), env=environment)[1]
    for name in ("bwe-control.bash", "_bwe-control", "bwe-control.fish"):
        assert "_BWE_CONTROL_COMPLETE" in (ROOT / "completions" / name).read_text()


@pytest.mark.parametrize("shell, file", [("bash", "bwe-control.bash"), ("zsh", "_bwe-control")])
def test_a_shell_takes_its_completion(shell, file):
    if shutil.which(shell) is None:
        pytest.skip(f"there is no {shell}")
    assert run(shell, "-n", str(ROOT / "completions" / file))[0] == 0


def test_no_code_asks_the_time_of_day():
    """Leases, waits and ages are by monotonic clocks, so a clock that jumps moves none of them.

    How old a file of an exporter is, its time alone tells.
    """
    code = set((CONTROL / "bwe_control").rglob("*.py"))
    for path in sorted(code - {CONTROL / "bwe_control/link_watch/watch.py"}):
        assert not re.search(r"\btime\.time\(|datetime|utcnow", path.read_text()), path


@needs("openssl")
def test_certificates_are_those_of_users_and_members(tmp_path):
    script = str(CONTROL / "etcd/certificates")
    folder = str(tmp_path / "pki")
    assert run(script, folder, "authority")[0] == 0
    assert run(script, folder, "authority")[0] == 1
    assert run(script, folder, "member", "m1", "10.0.0.1", "h1", "::1")[0] == 0
    assert run(script, folder, "client", "main:reporter:r0")[0] == 0
    assert run(script, folder, "client", "x" * 65)[0] == 1
    assert run(script, folder)[0] == 2
    made = Path(folder)
    words = ["openssl", "verify", "-CAfile", str(made / "authority.crt")]
    for name in ("m1", "main-reporter-r0"):
        assert run(*words, str(made / f"{name}.crt"))[0] == 0
        assert (made / f"{name}.key").stat().st_mode & 0o077 == 0
    text = run("openssl", "x509", "-in", str(made / "m1.crt"), "-noout", "-text")[1]
    assert "IP Address:10.0.0.1" in text and "DNS:h1" in text
    text = run("openssl", "x509", "-in", str(made / "main-reporter-r0.crt"), "-noout", "-subject")[
        1
    ]
    assert text.strip().endswith("CN = main:reporter:r0")


def test_the_settings_of_a_member_name_all_members():
    script = str(CONTROL / "etcd/member")
    status, said = run(script, "m2", "10.0.0.2", "m1=10.0.0.1,m2=10.0.0.2")
    assert status == 0
    assert "ETCD_INITIAL_CLUSTER=m1=https://10.0.0.1:2380,m2=https://10.0.0.2:2380\n" in said
    assert "ETCD_MAX_REQUEST_BYTES=8388608\n" in said
    assert run(script, "m2", "10.0.0.9", "m1=10.0.0.1,m2=10.0.0.2")[0] == 2


def test_a_package_that_is_missing_is_named(tmp_path):
    """With a click, a grpc or a prometheus_client that is not there: one sentence, status 2."""
    for module, package, words in (
        ("click", "python3-click", ["status"]),
        ("grpc", "python3-grpcio", ["--store", "etcd:127.0.0.1:1", "status"]),
        ("etcd3", "python3-etcd3", ["--store", "etcd:127.0.0.1:1", "status"]),
        ("prometheus_client", "python3-prometheus-client", ["allocate"]),
    ):
        text = f"import sys\nsys.modules['{module}'] = None\n"
        (tmp_path / "sitecustomize.py").write_text(text)
        status, said = run(str(PROGRAM), *words, env={**os.environ, "PYTHONPATH": str(tmp_path)})
        assert status == 2 and said.count("\n") == 1 and f"apt-get install {package}" in said, said
