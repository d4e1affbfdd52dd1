"""The launchers in front of a program that stands: they call it at once, and its bytes and exit
status come out as they are. The program is a stand-in, in the place of an installed one.
"""

import os
import pty
import re
import shutil
import signal
import subprocess
import time

import pytest

from tool_runs import EXAMPLES, ROOT

COPIED = [
    "bwe",
    "bwe-live",
    "VERSION",
    "KIT",
    *(f"tools/operator/{name}.bash" for name in ("input", "launcher", "meant")),
]
BUILDING = "chains edits left packages prove sources".split()
COMMANDS = "solve check levels run audit tiers estimate enforce make bulk".split()

# Says its arguments, and what it reads; a document that says so is refused.
PROGRAM = """#!/bin/bash
echo "arguments: $*"
[[ $1 != make && $1 != [a-z]*o*s ]] || exit 2
given=$(cat; echo .)
printf '%s' "${given%.}"
case $given in
    *refused*) exit 3 ;;
    *ends*) kill -TERM $$ ;;
esac
"""


@pytest.fixture(name="folder")
def made_folder(tmp_path, monkeypatch):
    top = tmp_path / "installed"
    for name in COPIED:
        (top / name).parent.mkdir(parents=True, exist_ok=True)
        shutil.copy(ROOT / name, top / name)
    (top / "programs").mkdir()
    for name in ("bwe", "bwe_live"):
        (top / "programs" / name).write_text(PROGRAM)
        (top / "programs" / name).chmod(0o755)
    (top / "tools/operator/bwe_tools/commands").mkdir(parents=True)
    (top / "tools/operator/bwe_tools/commands/from_csv.py").touch()
    (top / "tools/operator/bwe_tools/commands/lint.py").touch()
    (tmp_path / "a document").write_text("a document\n")
    (tmp_path / "a part").write_text("a part\n")
    monkeypatch.delenv("BWE_BUILD", raising=False)
    monkeypatch.chdir(tmp_path)
    return top


def run(*words, given="", **options):
    options = {"stdout": subprocess.PIPE, "stderr": subprocess.PIPE, **options}
    return subprocess.run(words, input=given, text=True, timeout=600, check=False, **options)


def test_bytes_and_status_are_those_of_the_program(folder):
    told = run(folder / "bwe", "solve", given="this is refused")
    answer = "arguments: solve\nthis is refused"
    assert (told.returncode, told.stdout, told.stderr) == (3, answer, "")


def test_no_other_command_is_needed_for_a_program_that_stands(folder, tmp_path):
    (tmp_path / "bin").mkdir()
    for name in ("bash", "dirname", "readlink", "cat"):
        (tmp_path / "bin" / name).symlink_to(shutil.which(name))
    told = run(folder / "bwe", "solve", given="x", env={"PATH": str(tmp_path / "bin")})
    assert (told.returncode, told.stdout, told.stderr) == (0, "arguments: solve\nx", "")


def test_help_and_version_are_the_launchers(folder):
    for word in ("--help", "-h"):
        told = run(folder / "bwe", word)
        assert told.returncode == 0
        assert all(f"\n  {name} " in told.stdout for name in COMMANDS)
        assert "\n  post " in run(folder / "bwe-live", word).stdout
    version = run(folder / "bwe", "--version").stdout.splitlines()
    assert version[0] == "bwe " + (ROOT / "VERSION").read_text().strip()
    assert version[1] == "kit: " + (ROOT / "KIT").read_text().strip()
    assert version[2] == f"program: installed, {folder}/programs/bwe"


def test_the_help_has_the_exit_statuses_of_the_manual(folder):
    for name in ("bwe", "bwe-live"):
        text = " ".join(run(folder / name, "--help").stdout.split())
        manual = (ROOT / "man" / f"{name}.1").read_text()
        for status in re.findall(r"^\.It ([0-9]+)$", manual, re.MULTILINE):
            assert re.search(rf"Exit status:.*\b{status} [a-z]", text), (name, status)


@pytest.mark.parametrize(
    "words",
    [
        ["solve"],
        ["audit"],
        ["tiers"],
        ["enforce"],
        ["levels", "90"],
        ["estimate", "2", "110"],
        ["run"],
        ["run", "--readers", "3"],
        ["run", "--reads=2", "--readers=3"],
    ],
)
def test_one_more_argument_is_the_file_to_read(folder, words):
    told = run(folder / "bwe", *words, "a document", given="unread")
    answer = f"arguments: {' '.join(words)}\na document\n"
    assert (told.stdout, told.stderr) == (answer, "")
    told = run(folder / "bwe", *words, "-", given="from standard input")
    assert told.stdout.endswith("\nfrom standard input")


@pytest.mark.parametrize("words", [["audit"], ["tiers"], ["enforce"], ["estimate", "2", "110"]])
def test_two_more_arguments_are_joined(folder, words):
    answer = f"arguments: {' '.join(words)}\n11\na document\na part\n"
    told = run(folder / "bwe", *words, "a document", "a part", given="unread")
    assert (told.stdout, told.stderr) == (answer, "")
    told = run(folder / "bwe", *words, "a document", "-", given="a part\n")
    assert (told.stdout, told.stderr) == (answer, "")
    told = run(folder / "bwe", *words, "-", "a part", given="a document\n")
    assert (told.stdout, told.stderr) == (answer, "")


def test_a_pipe_serves_as_a_file(folder):
    line = f"{folder}/bwe tiers <(cat 'a document') <(cat 'a part')"
    assert run("bash", "-c", line).stdout == "arguments: tiers\n11\na document\na part\n"
    line = f"echo post | {folder}/bwe-live <(cat 'a document')"
    assert run("bash", "-c", line).stdout == "arguments: \n11\na document\npost\n"


def test_a_document_goes_before_the_lines_of_bwe_live(folder):
    told = run(folder / "bwe-live", "a document", given="post\n")
    answer = "arguments: \n11\na document\npost\n"
    assert (told.returncode, told.stdout, told.stderr) == (0, answer, "")


@pytest.mark.parametrize(
    "words, said",
    [
        ([], "bwe --help has the commands, each with an example"),
        (["slove"], "did you mean solve?"),
        (["solv", "a document"], "did you mean solve?"),
        (["lint"], "lint is of bwe-tools: bwe-tools lint"),
        (["form-csv"], "did you mean from-csv, which is of bwe-tools?"),
        (["post"], "post is an input line of bwe-live"),
        (["hlep"], "did you mean --help?"),
        (["a document"], "did you mean: bwe solve a document"),
        (["nothing-like-it"], "there is no command nothing-like-it; bwe --help has the commands"),
        (["solve", "absent"], "there is no file absent to read"),
        (["tiers", "a document", "absent"], "there is no file absent to read"),
        (["levels"], "levels takes a share from 0 to 1000000000, and a document"),
        (["levels", "1000000001"], "levels takes a share from 0 to 1000000000, and a document"),
        (
            ["run", "--readers", "65"],
            "run takes --readers 1 to 64, --reads 0 to 1000, and a document",
        ),
        (
            ["make", "1", "9", "8"],
            "make takes a seed, 1 to 1024 groups, and tasks, from as many as groups to 20000",
        ),
    ],
)
def test_it_is_said_what_was_likely_meant(folder, words, said):
    told = run(folder / "bwe", *words, given="unread")
    assert told.stdout.startswith(f"arguments: {' '.join(words)}\n")
    assert told.stderr == f"bwe: {said}\n"


@pytest.mark.parametrize(
    "words, said",
    [
        (["absent"], "there is no file absent to read"),
        (["solve"], "solve is of bwe: bwe solve"),
        (
            ["a document", "x"],
            "it takes one document, and lines on standard input; bwe-live --help says more",
        ),
    ],
)
def test_bwe_live_says_it_too(folder, words, said):
    told = run(folder / "bwe-live", *words)
    assert told.stdout == f"arguments: {' '.join(words)}\n"
    assert told.stderr == f"bwe-live: {said}\n"


LINT = """#!/bin/bash
[ "$1" = lint ] && cat "$2" >/dev/null || exit 9
echo "$2:3:7: fault: \\"capacity\\" is -1, did you mean 1? (bwe: refused 2 shape at /links)"
echo "$2:4:7: fault: another one (bwe: refused 2 shape at /tasks)"
exit 2
"""


@pytest.fixture(name="with_lint")
def made_with_lint(folder):
    (folder / "bwe-tools").write_text(LINT)
    (folder / "bwe-tools").chmod(0o755)
    return folder


@pytest.mark.parametrize(
    "line, said",
    [
        ("bwe solve refused.json", 'bwe: 3:7: "capacity" is -1, did you mean 1?\n'),
        ("bwe solve <refused.json", 'bwe: 3:7: "capacity" is -1, did you mean 1?\n'),
        ("bwe tiers refused.json 'a part'", 'bwe: 3:7: "capacity" is -1, did you mean 1?\n'),
        ("bwe-live refused.json", 'bwe-live: 3:7: "capacity" is -1, did you mean 1?\n'),
        (
            "cat refused.json | INSTALLED/bwe solve",
            "bwe: this input is refused; bwe-tools lint DOCUMENT says why a document is\n",
        ),
        ("bwe solve 'a document'", ""),
    ],
)
def test_a_refusal_in_a_file_is_explained(with_lint, tmp_path, line, said):
    (tmp_path / "refused.json").write_text("this is refused")
    line = line.replace("INSTALLED", str(with_lint)) if "|" in line else f"{with_lint}/{line}"
    with (tmp_path / "out").open("w") as out:
        told = run("bash", "-c", line, stdout=out)
    assert told.stderr == said
    assert told.returncode == (3 if said else 0)
    assert (tmp_path / "out").read_text().startswith("arguments: ")
    assert run("bash", "-c", line).stderr == ""


def test_a_refusal_on_a_terminal_is_explained(with_lint, tmp_path):
    (tmp_path / "refused.json").write_text("this is refused")
    ours, theirs = pty.openpty()
    told = run(with_lint / "bwe", "solve", "refused.json", stdout=theirs)
    assert told.returncode == 3 and told.stderr.startswith("bwe: 3:7: ")
    assert os.read(ours, 100).startswith(b"arguments: solve")


def test_a_launcher_that_explains_ends_as_its_program_and_with_it(with_lint, tmp_path):
    with (tmp_path / "out").open("w") as out:
        assert run(with_lint / "bwe", "solve", given="it ends", stdout=out).returncode == -15
    with (tmp_path / "out").open("w") as out, subprocess.Popen(
        [with_lint / "bwe", "solve"], stdin=subprocess.PIPE, stdout=out
    ) as waiting:
        until((tmp_path / "out").read_text, "arguments: solve\n")
        waiting.send_signal(signal.SIGTERM)
        assert waiting.wait(timeout=600) == -15


def until(found, wanted):
    for _ in range(12000):
        if found() == wanted:
            return
        time.sleep(0.05)
    raise AssertionError(f"{wanted!r} does not come")


@pytest.mark.parametrize(
    "document, is_said",
    [
        ('{"version":1}', True),
        ('{"closings": [ ]}', True),
        ('{"closings": [\n {"link":"l0","share":50}]}', False),
        ('{"\\u0063losings": [{"link":"l0","share":50}]}', False),
    ],
)
def test_check_says_that_there_is_no_closing(folder, tmp_path, document, is_said):
    (tmp_path / "document.json").write_text(document)
    for options in ({}, {"stdin": (tmp_path / "document.json").open()}):
        words = ["check"] if options else ["check", "document.json"]
        told = subprocess.run(
            [folder / "bwe", *words], capture_output=True, text=True, check=True, **options
        )
        assert told.stdout == f"arguments: check\n{document}"
        assert told.stderr == (
            "bwe: the document lists no closings to check; bwe solve writes those of its table\n"
            if is_said
            else ""
        )


@pytest.mark.skipif(shutil.which("shellcheck") is None, reason="there is no shellcheck")
def test_shellcheck_has_nothing_to_say():
    scripts = ["bwe", "bwe-live", *(f"tools/build/{name}" for name in BUILDING)]
    told = run("shellcheck", "-x", *scripts, cwd=ROOT)
    assert told.stdout == ""


def test_links_are_followed(folder, tmp_path):
    (tmp_path / "first").symlink_to(folder / "bwe")
    (tmp_path / "second").symlink_to(tmp_path / "first")
    assert run(tmp_path / "second", "solve", given="x").stdout == "arguments: solve\nx"


def test_a_terminal_is_told_that_a_document_is_awaited(folder):
    ours, theirs = pty.openpty()
    with subprocess.Popen(
        [folder / "bwe", "solve"],
        stdin=theirs,
        stdout=subprocess.PIPE,
        stderr=subprocess.PIPE,
        text=True,
    ) as waiting:
        os.write(ours, b"\x04")
        told = waiting.communicate(timeout=600)
    assert told == (
        "arguments: solve\n",
        "bwe: waiting for a document on standard input, which Ctrl-D ends\n",
    )
