"""What `make install`, `make deb` and `make release` put where, with stand-ins for the programs."""

import os
import shutil
import subprocess
from pathlib import Path

import pytest

TOP = Path(__file__).resolve().parents[3]
COPIED = [
    *("Makefile", "VERSION", "KIT", "HANDLES", "bwe", "bwe-live", "bwe-tools"),
    *("README.md", "CHANGELOG.md", "CONTRIBUTING.md"),
    *("tools", "docs", "examples", "man", "completions"),
]
PROGRAM = '#!/bin/sh\necho NAME: "$*"\ncat\n'


@pytest.fixture(name="checkout", scope="module")
def made_checkout(tmp_path_factory):
    """A checkout with two programs over one library, and what stands in this one beside crates."""
    top = tmp_path_factory.mktemp("checkout")
    for name in COPIED:
        if (TOP / name).is_dir():
            shutil.copytree(TOP / name, top / name, ignore=shutil.ignore_patterns("__pycache__"))
        else:
            shutil.copy(TOP / name, top / name)
    (top / "crates.txt").write_text("words:\nbwe: words\nbwe_live: words\n")
    for name in ("words", "bwe", "bwe_live"):
        folder = top / "crates" / name
        (folder / "src").mkdir(parents=True)
        (folder / "out").mkdir()
        (folder / "src" / ("lib.rt" if name == "words" else "main.rt")).write_text("right\n")
        (folder / "out/prove.log").write_text("logic=proved functions=3 sum=1\n")
    for name in ("bwe", "bwe_live"):
        program = top / f"crates/{name}/out/{name}"
        program.write_text(PROGRAM.replace("NAME", name))
        program.chmod(0o755)
        sum_of_sources = run(top, "tools/build/sources", name).stdout
        program.with_name(f"{name}.sources").write_text(sum_of_sources)
    (top / "control/bwe_control").mkdir(parents=True)
    (top / "control/bwe_control/__init__.py").touch()
    (top / "control/tests").mkdir()
    (top / "control/units").mkdir()
    (top / "control/units/bwe-allocator.service").write_text("ExecStart=/usr/bin/bwe-control x\n")
    (top / "bwe-control").write_text("#!/usr/bin/python3\n")
    return top


def run(top, *words, given="", **environment):
    return subprocess.run(
        words,
        cwd=top,
        input=given,
        env={**os.environ, "MAKEFLAGS": "", **environment},
        capture_output=True,
        text=True,
        timeout=600,
        check=False,
    )


@pytest.fixture(name="root", scope="module")
def made_root(checkout, tmp_path_factory):
    top = tmp_path_factory.mktemp("root")
    made = run(checkout, "make", "install", f"DESTDIR={top}", "PREFIX=/usr")
    assert (made.returncode, made.stderr) == (0, "")
    return top


def test_what_is_installed_works_without_sources_and_make(root):
    assert run(root, "usr/bin/bwe", "solve", given="x").stdout == "bwe: solve\nx"
    told = run(root, "usr/bin/bwe-live", "usr/lib/bwe/VERSION", given="post\n").stdout
    assert told.startswith("bwe_live: \n") and told.endswith("\npost\n")
    version = run(root, "usr/bin/bwe", "--version").stdout
    assert f"program: installed, {root}/usr/lib/bwe/programs/bwe\n" in version
    table = (TOP / "examples/shared-link.txt").read_text()
    told = run(root, "usr/bin/bwe-tools", "json", given=table)
    assert told.returncode == 0 and told.stdout.startswith("{")
    modules = f"{root}/usr/lib/python3/dist-packages"
    told = run(root, "/usr/bin/python3", "-c", "import bwe", PYTHONPATH=modules)
    assert (told.returncode, told.stderr) == (0, "")
    told = run(root, "usr/bin/bwe", "lint")
    assert told.stderr == "bwe: lint is of bwe-tools: bwe-tools lint\n"


@pytest.mark.parametrize(
    "name",
    [
        "share/man/man1/bwe.1.gz",
        "share/man/man1/bwe-tools.1.gz",
        "share/bash-completion/completions/bwe",
        "share/bash-completion/completions/bwe-tools",
        "share/zsh/vendor-completions/_bwe-live",
        "share/fish/vendor_completions.d/bwe-tools.fish",
        "share/doc/bwe/docs/FORMAT.md",
        "share/doc/bwe/examples/shared-link.json",
        "lib/systemd/system/bwe-allocator.service",
        "bin/bwe-control",
        "lib/python3/dist-packages/bwe_tools/cli.py",
        "lib/bwe/control/bwe_control/__init__.py",
    ],
)
def test_each_file_stands_where_a_system_looks_for_it(root, name):
    assert (root / "usr" / name).is_file()


def test_no_test_is_installed_and_no_file_has_a_name_of_the_checkout(checkout, root):
    assert not [path for path in root.rglob("*") if path.name in ("tests", "__pycache__")]
    for path in root.rglob("*"):
        assert not path.is_file() or str(checkout).encode() not in path.read_bytes(), path


def test_units_call_the_commands_below_the_prefix(checkout, tmp_path):
    run(checkout, "make", "install", f"DESTDIR={tmp_path}", "PREFIX=/opt/bwe")
    unit = tmp_path / "opt/bwe/lib/systemd/system/bwe-allocator.service"
    assert unit.read_text() == "ExecStart=/opt/bwe/bin/bwe-control x\n"
    assert (tmp_path / "opt/bwe/share/zsh/site-functions/_bwe").is_file()


def test_a_program_of_other_sources_is_not_installed(checkout, tmp_path):
    source = checkout / "crates/words/src/more.rt"
    source.write_text("another\n")
    told = run(checkout, "make", "install", f"DESTDIR={tmp_path}")
    source.unlink()
    assert told.returncode != 0 and not list(tmp_path.iterdir())
    assert "the program bwe is built of other sources" in told.stderr


@pytest.mark.skipif(shutil.which("dpkg-deb") is None, reason="there is no dpkg-deb")
def test_the_package_is_the_same_each_time_and_lintian_finds_no_error(checkout):
    made = [run(checkout, "make", "deb", SOURCE_DATE_EPOCH="1000000000") for _ in range(2)]
    assert [one.returncode for one in made] == [0, 0], made[0].stderr
    package = checkout / made[0].stdout.strip()
    assert package.name.startswith(f"bwe_{(TOP / 'VERSION').read_text().strip()}_")
    fields = run(checkout, "dpkg-deb", "-f", package).stdout
    assert "python3-click, python3-jsonschema, " in fields
    needed, recommended = fields.split("Recommends: ")
    assert "python3-prometheus-client" in needed and "nftables" in needed
    assert recommended.startswith("python3-scipy, python3-grpcio")
    if shutil.which("lintian"):
        found = run(checkout, "lintian", "--fail-on", "error", package)
        assert found.returncode == 0, found.stdout


def test_the_release_works_unpacked_and_has_its_sums(checkout, tmp_path):
    made = run(checkout, "make", "release")
    assert made.returncode == 0, made.stderr
    subprocess.run(["tar", "-xf", checkout / made.stdout.strip(), "-C", tmp_path], check=True)
    (folder,) = tmp_path.iterdir()
    assert run(folder, "./bwe", "solve", given="x").stdout == "bwe: solve\nx"
    assert run(folder / "programs", "sha256sum", "-c", "--quiet", "SHA256SUMS").returncode == 0
    crates = [row.split() for row in (folder / "programs/CRATES").read_text().splitlines()]
    assert [row[:2] for row in crates] == [["words", "3"], ["bwe", "3"], ["bwe_live", "3"]]
    assert all(len(row[2]) == 64 for row in crates)
    assert (folder / "KIT").read_bytes() == (TOP / "KIT").read_bytes()
