"""Runs the tools on the arguments that a user gives, and says what they answered."""

import os
import stat
import traceback
from dataclasses import dataclass
from pathlib import Path

import pytest
from click.testing import CliRunner

from bwe_tools.cli import group

ROOT = Path(__file__).resolve().parents[3]
EXAMPLES = ROOT / "examples"
CASES = ROOT / "cases"


@dataclass(frozen=True)
class Answer:
    status: int
    out: str
    err: str


def run(*words, given: bytes = b"") -> Answer:
    """What a tool answers; `given` is its standard input. A trace counts as exit status 1."""
    runner = CliRunner(mix_stderr=False)
    result = runner.invoke(group, list(map(str, words)), input=given, prog_name="bwe-tools")
    err = result.stderr
    if result.exception is not None and not isinstance(result.exception, SystemExit):
        err += "".join(traceback.format_exception(*result.exc_info))
    return Answer(result.exit_code, result.stdout, err)


def fails(*words, given: bytes = b"") -> str:
    """What a tool says of bad input: a sentence on standard error, with exit status 2 and no trace."""
    answer = run(*words, given=given)
    assert answer.status == 2, answer
    assert answer.out == ""
    assert "Traceback" not in answer.err
    assert answer.err.startswith("bwe-tools: ") and answer.err.count("\n") == 1, answer.err
    return answer.err


def stand_in(folder: Path, text: str) -> Path:
    """A program for $BWE that does what the lines of a shell script say."""
    path = folder / "bwe"
    path.write_text("#!/bin/sh\n" + text + "\n")
    os.chmod(path, os.stat(path).st_mode | stat.S_IXUSR)
    return path


def has_program(crate: str = "bwe") -> bool:
    """Whether there is a program to run without building one."""
    return crate.upper() in os.environ or (ROOT / "crates" / crate / "out" / crate).exists()


needs_program = pytest.mark.skipif(not has_program(), reason="there is no built program")
needs_live = pytest.mark.skipif(not has_program("bwe_live"), reason="there is no built bwe-live")
