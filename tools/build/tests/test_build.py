"""The Makefile, and the launchers where they build, over a small repository and a stand-in for
`rt`.
"""

import os
import shutil
import signal
import subprocess
import time
from pathlib import Path

import pytest

TOP = Path(__file__).resolve().parents[3]
CRATES = {
    "words": [],
    "numbers": ["words"],
    "tables": ["words", "numbers"],
    "aside": ["words"],
    "bwe": ["tables"],
}

COPIED = [
    "Makefile",
    "bwe",
    "bwe-live",
    "tools/build/chains",
    "tools/build/edits",
    "tools/build/prove",
    "tools/build/left",
    "tools/build/room.bash",
    "tools/build/rt",
    "tools/build/sources",
    "tools/operator/input.bash",
    "tools/operator/launcher.bash",
    "tools/operator/meant.bash",
    "HANDLES",
    "VERSION",
    "KIT",
]

# Builds a library where those below are built, and refuses a crate whose source says `wrong`.
RT = r"""#!/bin/bash
echo "$1 ${PWD##*/} ${*:2}" >>"$CALLS"
name=${PWD##*/}
case $1 in
version) echo "a kit of tests"; exit ;;
must-fail)
    (cd "crates/$2/must-fail" && ls | sed "s/^/$2: /")
    [ ! -e "crates/$2/must-fail/let_through.edit" ]
    exit ;;
esac
for below in $(sed -n "s/^$name://p" ../../crates.txt); do
    [ -d "../$below" ] || continue
    [ -f "../$below/out/rlib/stamp" ] || { echo "$below is not built"; exit 1; }
done
mkdir -p out
sleep "${PROVING:-0}"
if grep -q wrong src/*; then
    echo "fn $name::good: proved"
    echo "fn $name::bad: a goal is open"
    exit 1
fi
case $1 in
lib) mkdir -p out/rlib && cat src/* >out/rlib/stamp ;;
run) printf '#!/bin/bash\necho "words: $*"\n[ "$1" = make ] || cat\nexit 3\n' >out/$name
     chmod +x out/$name
     # as the kit, which leaves no stamp where it is told of another compiler
     [[ " $* " = *" --backend "* ]] || touch out/$name.stamp ;;
esac
"""


@pytest.fixture(name="project")
def made_project(tmp_path, monkeypatch):
    """A repository of four libraries, of which the program `bwe` needs three."""
    top = tmp_path / "project"
    for name in COPIED:
        (top / name).parent.mkdir(parents=True, exist_ok=True)
        shutil.copy(TOP / name, top / name)
    lines = [f"{name}: {' '.join([*below, 'itertools'])}\n" for name, below in CRATES.items()]
    (top / "crates.txt").write_text("# words first\n" + "".join(lines))
    for name in CRATES:
        source = top / "crates" / name / "src" / ("main.rt" if name == "bwe" else "lib.rt")
        source.parent.mkdir(parents=True)
        source.write_text("right\n")
    (top / "crates/bwe/args").write_text("solve\n")
    (top / "crates/bwe/stdin").write_text("")
    (tmp_path / "bin").mkdir()
    rt = tmp_path / "bin/rt"
    rt.write_text(RT)
    rt.chmod(0o755)
    monkeypatch.setenv("PATH", f"{tmp_path}/bin:/usr/bin:/bin")
    monkeypatch.setenv("CALLS", str(tmp_path / "calls"))
    for name in ("MAKEFLAGS", "MFLAGS", "MAKELEVEL"):
        monkeypatch.delenv(name, raising=False)
    old_files(top)
    return top


def old_files(top):
    """Makes all files of the project older than what is built next."""
    for path in top.rglob("*"):
        os.utime(path, (time.time() - 100, time.time() - 100))


def run(top, *words, given=""):
    return subprocess.run(
        words, cwd=top, input=given, capture_output=True, text=True, timeout=600, check=False
    )


def proved(top):
    """The crates for which the stand-in was called in a room, in order, since the last look."""
    calls = top.parent / "calls"
    lines = calls.read_text().splitlines() if calls.exists() else []
    calls.write_text("")
    return list(
        dict.fromkeys(line.split()[1] for line in lines if line.split()[0] in ("lib", "run"))
    )


def test_make_builds_what_the_program_stands_on_in_order(project):
    made = run(project, "make")
    assert made.returncode == 0, made.stderr
    assert proved(project) == ["words", "numbers", "tables", "bwe"]
    assert "bwe: 0 proved, 4 left, about a minute; now words\n" in made.stderr
    assert made.stderr.endswith("bwe: all is proved\n")
    assert not list(project.glob("crates/*/out/room"))


def test_the_longest_chain_of_crates_is_begun_first(project):
    assert run(project, "tools/build/chains").stdout.split() == [*CRATES][:3] + ["aside", "bwe"]
    (project / "crates/aside/src/lib.rt").write_text("right\n" * 300)
    found = run(project, "tools/build/chains").stdout.split()
    assert found == ["words", "aside", *[*CRATES][1:3], "bwe"]


def test_what_a_crate_took_counts_for_more_than_its_lines(project):
    (project / "crates/aside/src/lib.rt").write_text("right\n" * 300)
    (project / "tools/build/seconds").write_text("numbers 300\nanother 900\n")
    found = run(project, "tools/build/chains", "--seconds").stdout.splitlines()
    assert [line.split()[2] for line in found] == ["words", "numbers", "aside", "tables", "bwe"]
    assert found[1].split()[1] == "300"
    assert "0 proved, 4 left, some " in run(project, "tools/build/left").stdout


def test_one_processor_takes_the_longest_chain_first(project):
    lines = (project / "crates.txt").read_text().replace("bwe: tables", "bwe: tables aside")
    (project / "crates.txt").write_text(lines)
    (project / "crates/aside/src/lib.rt").write_text("right\n" * 300)
    one = str(min(os.sched_getaffinity(0)))
    assert run(project, "taskset", "-c", one, "make").returncode == 0
    assert proved(project) == ["words", "aside", "numbers", "tables", "bwe"]


@pytest.mark.skipif(len(os.sched_getaffinity(0)) == 1, reason="one processor has one job")
def test_a_long_proof_for_which_the_rest_waits_takes_more_than_one_job(project):
    (project / "tools/build/seconds").write_text("numbers 300\n")
    assert run(project, "make").returncode == 0
    calls = (project.parent / "calls").read_text().splitlines()
    jobs = {line.split()[1]: int(line.split()[3]) for line in calls if "--jobs" in line}
    assert jobs.pop("numbers") > 1
    assert jobs == {"words": 1, "tables": 1, "bwe": 1}


def test_a_second_make_does_nothing(project):
    run(project, "make")
    proved(project)
    assert run(project, "make").returncode == 0
    assert proved(project) == []


def test_a_newer_source_is_proved_again_with_those_above(project):
    run(project, "make")
    proved(project)
    old_files(project)
    (project / "crates/numbers/src/more.rt").write_text("right\n")
    assert run(project, "make", "-q", "bwe").returncode == 1
    assert run(project, "make").returncode == 0
    assert proved(project) == ["numbers", "tables", "bwe"]


def test_no_library_is_built_for_a_program_that_is_newer_than_all_sources(project):
    run(project, "make")
    proved(project)
    shutil.rmtree(project / "crates/words/out")
    assert run(project, "make").returncode == 0
    assert proved(project) == []


def test_a_failed_crate_is_named_last_with_its_log(project):
    (project / "crates/numbers/src/lib.rt").write_text("wrong\n")
    made = run(project, "make")
    assert made.returncode != 0
    told = made.stderr[made.stderr.index("bwe: numbers is not proved") :]
    assert "fn numbers::bad: a goal is open\n" in told
    assert "good" not in told
    assert proved(project) == ["words", "numbers"]


def test_an_interrupted_build_goes_on_where_it_stopped(project, monkeypatch):
    monkeypatch.setenv("PROVING", "1")
    making = subprocess.Popen(
        ["make"],
        cwd=project,
        start_new_session=True,
        stderr=subprocess.DEVNULL,
        preexec_fn=lambda: signal.signal(signal.SIGINT, signal.SIG_DFL),
    )
    stamp = project / "crates/words/out/rlib/stamp"
    until(lambda: stamp.exists() and (project / "crates/numbers/out/room").exists())
    os.killpg(making.pid, signal.SIGINT)
    assert making.wait() != 0
    until(lambda: not list(project.glob("crates/*/out/room")))
    proved(project)
    monkeypatch.setenv("PROVING", "0")
    assert run(project, "make").returncode == 0
    assert proved(project) == ["numbers", "tables", "bwe"]


def until(holds):
    for _ in range(6000):
        if holds():
            return
        time.sleep(0.1)
    raise AssertionError("it took too long")


def test_edits_that_the_gate_leaves_out_are_tried_in_rooms(project):
    run(project, "make")
    proved(project)
    for name in ("tables", "numbers"):
        (project / "crates" / name / "wrong").mkdir()
        (project / "crates" / name / "wrong/late.edit").write_text("an edit\n")
    told = run(project, "tools/build/edits")
    assert told.returncode == 0
    assert sorted(told.stdout.splitlines()) == ["numbers: late.edit", "tables: late.edit"]
    assert run(project, "tools/build/edits", "tables").stdout == "tables: late.edit\n"
    (project / "crates/tables/wrong/let_through.edit").write_text("an edit\n")
    assert run(project, "tools/build/edits").returncode != 0
    assert run(project, "tools/build/edits", "words").returncode == 2
    assert not list(project.glob("crates/*/out/edits"))


def with_program(project, name):
    """The project with one more program, over one library, which echoes what it reads."""
    source = project / "crates" / name / "src/main.rt"
    source.parent.mkdir(parents=True)
    source.write_text("right\n")
    with (project / "crates.txt").open("a") as lines:
        lines.write(f"# top\n{name}: words\n")
    old_files(project)
    return project


@pytest.fixture(name="first_table")
def made_first_table(project):
    return with_program(project, "bwe_solve")


@pytest.fixture(name="two_programs")
def made_two_programs(project):
    return with_program(project, "bwe_live")


def test_make_builds_both_programs_and_bwe_alone(two_programs):
    made = run(two_programs, "make", "bwe")
    assert made.returncode == 0
    assert "bwe: 0 proved, 4 left, about a minute; now words\n" in made.stderr
    assert proved(two_programs) == ["words", "numbers", "tables", "bwe"]
    made = run(two_programs, "make")
    assert made.returncode == 0
    assert "bwe: 4 proved, 1 left, about a minute; now bwe_live\n" in made.stderr
    assert proved(two_programs) == ["bwe_live"]
    assert run(two_programs, "make").returncode == 0
    assert proved(two_programs) == []


# ---- the launchers, where they build


def launch(project, *words, build="1", given="", **environment):
    """Calls a launcher as on a terminal, where it looks for newer sources, or as a service."""
    return subprocess.run(
        words,
        cwd=project,
        input=given,
        env=dict(os.environ, BWE_BUILD=build, **environment),
        capture_output=True,
        text=True,
        timeout=600,
        check=False,
    )


def test_the_first_call_says_what_comes_and_builds(project):
    told = launch(project, "./bwe", "check", build="", given='{"closings":[1]}')
    assert (told.returncode, told.stdout) == (3, 'words: check\n{"closings":[1]}')
    said = told.stderr.splitlines()
    assert said[0].startswith("bwe: not built yet; all that it is built from is proved first: ")
    assert said[0].endswith(": 0 proved, 4 left, about a minute")
    assert "make look" in said[1] and "35 s" in said[1]


def test_newer_sources_are_built_where_they_are_looked_for(project):
    run(project, "make")
    (project / "crates/tables/src/lib.rt").write_text("another\n")
    proved(project)
    for build in ("", "0"):
        told = launch(project, "./bwe", "check", build=build, given='{"closings":[1]}')
        assert (told.returncode, told.stderr) == (3, "")
    assert proved(project) == []
    told = launch(project, "./bwe", "levels", "1")
    assert told.stderr.startswith("bwe: sources are newer than the program")
    assert proved(project) == ["tables", "bwe"]
    assert launch(project, "./bwe", "levels", "1").stderr == ""


def test_a_program_is_not_stale_where_only_times_are_newer(project):
    run(project, "make")
    for path in project.glob("crates/*/src/*"):
        path.touch()
    assert launch(project, "./bwe", "levels", "1").stderr == ""


def test_a_program_runs_as_it_stands_where_nothing_can_be_built(project, tmp_path):
    run(project, "make")
    (project / "crates/words/src/lib.rt").write_text("another\n")
    (tmp_path / "bin/rt").unlink()
    told = launch(project, "./bwe", "levels", "1")
    assert (told.returncode, told.stdout) == (3, "words: levels 1\n")
    assert "runs as it stands: there is no command rt on the PATH" in told.stderr


def test_version_tells_of_the_sources_without_make(project):
    without_make = {"PATH": f"{project.parent}/bin:{commands(project.parent, leave_out='make')}"}
    version = launch(project, "./bwe", "--version", **without_make)
    assert version.returncode == 0 and version.stdout.splitlines()[2:] == [
        "program: not built yet",
        "for solve alone: not built yet",
    ]
    run(project, "make")
    for name, stands in (("aside", "these very sources"), ("words", "other sources than these")):
        (project / f"crates/{name}/src/lib.rt").write_text("another\n")
        version = launch(project, "./bwe", "--version", **without_make).stdout
        assert f"program: built of {stands}" in version, name


def commands(folder, leave_out):
    """A folder with all of the machine's commands but one."""
    found = folder / f"without-{leave_out}"
    found.mkdir()
    for path in Path("/usr/bin").iterdir():
        if path.name != leave_out:
            (found / path.name).symlink_to(path)
    return found


@pytest.mark.parametrize("words", [["solve"], ["solve", "a document"]])
def test_solve_is_served_by_its_own_program_until_all_is_built(project, words):
    first_table = with_program(project, "bwe_solve")
    (first_table / "a document").write_text("a document")
    told = launch(first_table, "./bwe", *words, given="a document")
    assert (told.returncode, told.stdout) == (3, "words: \na document")
    assert told.stderr.startswith("bwe: solve has a program of its own")
    assert proved(first_table) == ["words", "bwe_solve"]
    told = launch(first_table, "./bwe", *words, given="a document")
    assert (told.stdout, told.stderr) == ("words: \na document", "")
    version = run(first_table, "./bwe", "--version").stdout.splitlines()
    assert version[2].endswith("not built yet") and version[3].endswith("of these very sources")
    run(first_table, "make")
    told = launch(first_table, "./bwe", *words, given="a document")
    assert (told.stdout, told.stderr) == ("words: solve\na document", "")


@pytest.mark.parametrize(
    "size, built", [(2_097_152, ["bwe_solve"]), (2_097_153, ["numbers", "tables", "bwe"])]
)
def test_a_long_document_waits_for_the_program_of_all_commands(project, size, built):
    first_table = with_program(project, "bwe_solve")
    (first_table / "a document").write_text(" " * size)
    assert launch(first_table, "./bwe", "solve", "a document").returncode == 3
    assert proved(first_table) == ["words", *built]


def test_where_nothing_can_be_built_solve_is_served_by_what_stands(project):
    without_make = {"PATH": f"{project.parent}/bin:{commands(project.parent, leave_out='make')}"}
    first_table = with_program(project, "bwe_solve")
    (first_table / "a document").write_text(" " * 2_097_153)
    run(first_table, "make", "bwe_solve")
    told = launch(first_table, "./bwe", "solve", "a document", **without_make)
    assert (told.returncode, told.stdout) == (3, "words: \n" + " " * 2_097_153)
    run(first_table, "make")
    (first_table / "crates/bwe_solve/out/bwe_solve").unlink()
    (first_table / "crates/words/src/lib.rt").write_text("another\n")
    told = launch(first_table, "./bwe", "solve", given="a document", **without_make)
    assert (told.returncode, told.stdout) == (3, "words: solve\na document")
    assert "which runs as it stands: there is no command make" in told.stderr


@pytest.mark.parametrize("words", [["slove"], ["solve", "absent"], ["levels"]])
def test_nothing_is_proved_for_arguments_that_are_no_command(project, words):
    told = launch(project, "./bwe", *words)
    assert (told.returncode, told.stdout) == (2, "") and told.stderr.count("\n") == 1
    assert proved(project) == []


def test_the_launcher_of_bwe_live_builds_what_it_needs(two_programs):
    told = launch(two_programs, "./bwe-live", given="a document")
    assert (told.returncode, told.stdout) == (3, "words: \na document")
    assert told.stderr.startswith("bwe-live: not built yet")
    assert proved(two_programs) == ["words", "bwe_live"]
    version = run(two_programs, "./bwe-live", "--version").stdout.splitlines()
    assert version[0].startswith("bwe-live ") and version[2].endswith("of these very sources")


def test_without_the_kit_it_says_what_is_missing(project, tmp_path):
    (tmp_path / "bin/rt").unlink()
    told = run(project, "./bwe", "check")
    assert (told.returncode, told.stdout) == (70, "")
    assert "no command rt" in told.stderr
    assert (project / "KIT").read_text().strip() in told.stderr


def test_a_failed_build_ends_with_status_70(project):
    (project / "crates/words/src/lib.rt").write_text("wrong\n")
    told = run(project, "./bwe", "check")
    assert (told.returncode, told.stdout) == (70, "")
    assert "bwe: words is not proved" in told.stderr
    assert told.stderr.endswith("bwe: the build failed\n")
