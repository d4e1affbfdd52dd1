"""What `check` and `tiers` take beside `solve` where functions stand at all levels: the tree is
made ready after the script, so that a value of it is cheap. The answers are the same without.
"""

import json
import os
import subprocess

import bench
import growth_plot
import pytest

from bwe_tools.program import find_program
from tool_runs import needs_program

GROUPS, TIERS, RUNS = 100, 4, 5


def seconds(program, words, given, folder):
    """The least processor time of a few runs."""
    room = folder / "input"
    room.write_bytes(given)
    times = []
    for _ in range(RUNS):
        with room.open("rb") as source:
            child = subprocess.Popen([program, *words], stdin=source, stdout=subprocess.DEVNULL)
            _, status, used = os.wait4(child.pid, 0)
        child.returncode = os.waitstatus_to_exitcode(status)
        assert child.returncode == 0
        times.append(used.ru_utime + used.ru_stime)
    return min(times)


@pytest.fixture(scope="module")
def document():
    return json.loads(growth_plot.nested(GROUPS))


@pytest.fixture(scope="module")
def of_solve(document, tmp_path_factory):
    """What `solve` of the document takes."""
    folder = tmp_path_factory.mktemp("solve")
    return seconds(str(find_program()), ["solve"], bench.text(document), folder)


@needs_program
def test_a_check_takes_less_than_the_table(document, of_solve, tmp_path):
    program = str(find_program())
    closings = bench.closings_of(bench.written(program, ["solve"], bench.text(document)))
    given = bench.text({**document, "closings": closings})
    assert closings and seconds(program, ["check"], given, tmp_path) < 0.7 * of_solve


@needs_program
def test_tiers_take_less_than_as_many_tables(document, of_solve, tmp_path):
    tiers = "".join(str(group % TIERS) for group in range(GROUPS)).encode() + b"\n"
    given = bench.parts(bench.text(document), tiers)
    assert seconds(str(find_program()), ["tiers"], given, tmp_path) < TIERS * of_solve
