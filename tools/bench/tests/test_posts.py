"""The times of posts, of a program that is none and answers each line `post`."""

import random

import posts
import wide
from click.testing import CliRunner

ANSWERS = """#!/bin/sh
read -r length
head -c "$length" >/dev/null
echo table 0
echo total 0
while read -r line; do [ "$line" = post ] && echo total 1; done
"""


def program(tmp_path, text=ANSWERS):
    path = tmp_path / "program"
    path.write_text(text)
    path.chmod(0o755)
    return path


def test_a_row_has_all_columns(tmp_path):
    words = ["--program", f"one={program(tmp_path)}", "--sites", "5", "--tasks", "60"]
    ran = CliRunner().invoke(posts.main, words)
    assert ran.exit_code == 0, ran.output
    header, line, row = ran.output.splitlines()
    assert header.count("|") == line.count("|") == row.count("|") == 9
    assert row.startswith("| one | ") and row.endswith(" MB |")


def test_a_program_that_ends_early_is_told(tmp_path):
    words = ["--program", f"one={program(tmp_path, '#!/bin/sh')}", "--sites", "5", "--tasks", "60"]
    ran = CliRunner().invoke(posts.main, words)
    assert ran.exit_code == 1 and "ended before its answer" in ran.output


def test_reports_name_what_the_mesh_has():
    given = posts.mesh(5, 60)
    asked = dict(posts.questions(random.Random(1), given))
    names = {link["name"]: link["owner"] for link in given.links}
    kind, owner, name, amount = asked["a cut"].decode().splitlines()[0].split()
    assert (kind, names[name], amount) == ("capacity", owner, "0")
    kind, reporter, task, _ = asked["later ones"].decode().splitlines()[0].split()
    assert (kind, reporter) == ("demand", f"r{int(task[1:]) % wide.REPORTERS}")
