"""The runner of conversations and the plain implementation of `bwe-live`, over stand-ins that do
something wrong.
"""

import json
from pathlib import Path

import pytest

import conversations
import live

TOP = Path(__file__).resolve().parents[3]
SHARED = (TOP / "examples/shared-link.json").read_bytes()
TABLE = (TOP / "examples/shared-link.txt").read_text()
TALK = """document examples/shared-link.json
<< examples/shared-link.txt
> bad
< refused line 1 cause 1
> post
< change 2
< total 100
>> po
nothing
end
< refused line 3 cause 1
status 0
"""

# A stand-in with the plain implementation inside, in which one text takes the place of another.
WRONG = """#!/usr/bin/python3
import sys
sys.path.insert(0, {tools!r})
__file__ = {tools!r} + "/live.py"
source = open(__file__).read()
assert {old!r} in source
exec(compile(source.replace({old!r}, {new!r}), "live", "exec"))
"""


@pytest.fixture(name="talk")
def made_talk(tmp_path, monkeypatch):
    monkeypatch.setattr(conversations, "SECONDS", 5)
    monkeypatch.delenv("PYTHONUNBUFFERED", raising=False)
    file = tmp_path / "conversation"
    file.write_text(TALK)
    return file


def wrong(tmp_path, old, new):
    program = tmp_path / "program"
    program.write_text(WRONG.format(tools=str(TOP / "tools/check"), old=old, new=new))
    program.chmod(0o755)
    return program


def test_a_conversation_is_held(talk):
    assert conversations.fault_of(TOP / "tools/check/live.py", talk) is None


@pytest.mark.parametrize(
    "old, new, fault",
    [
        # Answers are kept back, as by a sink with a buffer.
        ("        sink.flush()\n    return 0", "    return 0", "line 4"),
        ("self.lines += 1", "self.lines += 2", "line 4"),
        ('"post":', '"pst":', "line 6"),
        ("    return 0\n\n\ndef follow", "    return 1\n\n\ndef follow", "line 12"),
        ("sink.write(live.answer(line).encode())", "print('oh', file=sys.stderr)", "line 4"),
    ],
)
def test_a_program_that_does_otherwise_is_told_by_the_line(tmp_path, talk, old, new, fault):
    told = conversations.fault_of(wrong(tmp_path, old, new), talk)
    assert told is not None and told.startswith(fault + ","), told


def test_what_has_not_come_is_said_in_one_sentence(tmp_path, talk):
    talk.write_text("> 1\nnothing\n< never\n")
    told = conversations.fault_of(TOP / "tools/check/live.py", talk)
    assert told == "line 3, '< never': b'' has come, wanted b'never', and then 5 s"


def test_a_program_that_ends_too_early_is_told(talk):
    talk.write_text("> x\n< refused 14 parts\n< more\n")
    told = conversations.fault_of(TOP / "tools/check/live.py", talk)
    assert told.endswith("and then the end of what it writes")


def test_a_program_that_does_not_end_is_told(talk):
    talk.write_text("status 0\n")
    told = conversations.fault_of(TOP / "tools/check/live.py", talk)
    assert told.endswith("it still runs after 5 s, wanted status 0")


def followed(*lines):
    given = b"%d\n%s" % (len(SHARED), SHARED) + "".join(line + "\n" for line in lines).encode()
    written, status = live.follow_text(given)
    assert status == 0
    return written.decode()[len(TABLE) :]


def test_a_change_put_into_a_table_gives_the_next_table():
    change = followed("demand r0 t1 40", "post")
    document = dict(json.loads(SHARED))
    document["script"] = document["script"] + [{"reporter": "r0", "task": "t1", "demand": 40}]
    assert live.with_change(TABLE, change) == live.table_of(document)


@pytest.mark.parametrize(
    "change, fault",
    [
        ("change 1\ntotal 100\n", "falls"),
        ("change 3\nclosings 1\nclosing l0 at 50\ntotal 100\n", "stay as they are"),
        ("change 3\nclosings 2\nclosing l0 at 60\ntotal 100\n", "1 closings under"),
        ("change 3\nclosing l0 at 60\ntotal 100\n", "without a line closings"),
        ("change 3\ntask t0 limit 50\ntotal 100\n", "stays as it is"),
        ("change 3\ntask t9 limit 50\ntotal 100\n", "not in the table"),
        ("change 3\ntask t1 limit 5\ntask t0 limit 5\ntotal 100\n", "not in its order"),
        ("change 3\ntask t0 limit 5\nlink l0 load 5\ntotal 10\n", "behind a line 'task'"),
        ("change 3\n", "no total"),
        ("total 100\n", "none of its kind"),
        ("change 3\ntotal 100", "in the middle of a line"),
    ],
)
def test_a_change_that_is_none_is_told(change, fault):
    with pytest.raises(live.Fault, match=fault):
        live.with_change(TABLE, change)
