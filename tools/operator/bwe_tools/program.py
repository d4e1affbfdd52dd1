"""Finds the programs `bwe` and `bwe-live`, runs a command, and says in a sentence what its exit
status means.
"""

from __future__ import annotations

import os
import shutil
import subprocess
import sys
from pathlib import Path

from bwe_tools.document import ToolError
from bwe_tools.table import Table, parse_table

ROOT = Path(__file__).resolve().parents[3]
# Of each program the variable that names one to run.
VARIABLES = {"bwe": "BWE", "bwe-live": "BWE_LIVE"}

SENTENCES = {
    2: "the program does not know the command `{line}`; is it older than these tools?",
    4: "the program could not read its input",
    5: "the program could not write its answer",
    6: "the program ran out of memory, and wrote nothing",
    7: "the program could not read its own arguments",
    8: "the document is longer than the program reads",
    70: "the program could not be built, so there is none to run",
}


def page_file(name: str) -> Path:
    """A file of docs/; where these tools are installed, it is under share/bwe."""
    own = ROOT / "docs" / name
    return own if own.exists() else Path(sys.prefix) / "share" / "bwe" / name


class NoProgram(ToolError):
    """There is no program to run, or it cannot be run."""


class Refused(ToolError):
    """The program refuses a document. `line` is what it wrote, as docs/FORMAT.md lists them."""

    def __init__(self, message: str, line: str) -> None:
        super().__init__(message)
        self.line = line


class ProgramEnded(ToolError):
    """The program ended without its answer. `status` is its exit status, or minus the number of the
    signal that ended it.
    """

    def __init__(self, message: str, status: int) -> None:
        super().__init__(message)
        self.status = status


def find_program(name: str = "bwe") -> Path:
    """The program: that of its variable, else the one that stands here, else the launcher, which
    builds it, else the one on the PATH.
    """
    named = os.environ.get(VARIABLES[name])
    if named:
        if not os.access(named, os.X_OK) or not Path(named).is_file():
            raise NoProgram(f"{VARIABLES[name]} names {named}, which is no program that can be run")
        return Path(named)
    crate = name.replace("-", "_")
    # The launcher builds the program first, and says so on standard error, which is left to it.
    stands = (ROOT / "programs" / crate, ROOT / "crates" / crate / "out" / crate, ROOT / name)
    for path in stands:
        if path.is_file() and os.access(path, os.X_OK):
            return path
    found = shutil.which(name)
    if found is not None:
        return Path(found)
    raise NoProgram(
        f"there is no program: build it with ./{name}, or name it in the variable"
        f" {VARIABLES[name]}"
    )


def run_program(words: list[str], document: bytes, what: str = "the document") -> str:
    """What the program writes for a line and a document; `what` names the document in sentences."""
    program = find_program()
    try:
        child = subprocess.run(
            [program, *words], input=document, stdout=subprocess.PIPE, check=False
        )
    except OSError as fault:
        raise NoProgram(f"{program} could not be run: {fault.strerror}") from None
    answer = child.stdout.decode("utf-8", "replace")
    if child.returncode == 0:
        return answer
    raise fault_of(child.returncode, ["bwe", *words], answer, what)


def fault_of(status: int, words: list[str], answer: str, what: str) -> ToolError:
    """What an exit status but 0 means, with what the program wrote before it ended."""
    line = answer.strip()
    if status in (3, 8) and line.startswith("refused"):
        return Refused(f"bwe refuses {what}: {line} (`bwe-tools lint` says more)", line)
    if status < 0:
        return ProgramEnded(f"the program was ended by signal {-status}", status)
    sentence = SENTENCES.get(status, f"the program ended with exit status {status}, which is unknown")
    return ProgramEnded(sentence.format(line=" ".join(words)), status)


def solve(document: bytes, what: str = "the document") -> Table:
    """The table of a document, as `bwe solve` computes it."""
    return parse_table(run_program(["solve"], document, what), "the answer of `bwe solve`")


def values_at_top(document: bytes, what: str = "the document") -> dict[str, int]:
    """What each group may have at most: its demands under its functions, by `bwe levels`."""
    return values_at(1_000_000_000, document, what)


def values_at(share: int, document: bytes, what: str = "the document") -> dict[str, int]:
    """What each group may have at a share, whatever links carry, by `bwe levels`."""
    lines = run_program(["levels", str(share)], document, what).splitlines()
    return {words[1]: int(words[2]) for words in map(str.split, lines) if words[0] == "level"}


def check_accepted(document: bytes, what: str = "the document") -> None:
    """A ToolError with the program's own line where it refuses the document."""
    run_program(["levels", "0"], document, what)
