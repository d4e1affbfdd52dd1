#!/usr/bin/python3
"""tools/check/wrong_mains.py [NAME..]: plants wrong bodies at the edge of the programs, which no
proof refuses, and sees that an end-to-end case fails for each.

No contract says which arguments there are, what the standard streams of the system hold, or when
memory is short. So a `main` that always ends with 0, or a call that answers "out of memory" behind
a hundred thousand lines, is proved; cases have to refuse it. An edit of wrong_mains/ has the
crate, the file, one line and the one that takes its place, and the case that has to fail.

Each is planted in a copy of the checkout, proved and built there (a minute for a `main`, ten and
more for a crate far below), and its case is run. A program that fails what its crate's files `args`
and `stdin` ask for, on which `make` runs it, is refused by that run. A line says what came of each;
the exit status is 0 where every body was refused by a run. Run `make` before.
"""

import shutil
import subprocess
import sys
import tempfile
from dataclasses import dataclass
from pathlib import Path

TOP = Path(__file__).resolve().parents[2]
EDITS = Path(__file__).resolve().parent / "wrong_mains"

BY_RUN = "refused by its own run"
BY_CASE = "refused by its case"


@dataclass(frozen=True)
class Edit:
    name: str
    crate: str
    file: str
    old: str
    new: str
    case: str

    @property
    def program(self) -> str:
        """The crate of the program that the case is run on."""
        if self.case.startswith("live/"):
            return "bwe_live"
        return "bwe" if self.crate in ("bwe", "program_words") else "bwe_solve"


def edit_of(file: Path) -> Edit:
    rows = (row.split(": ", 1) for row in file.read_text().splitlines())
    return Edit(name=file.stem, **dict(rows))


def copy_of_checkout(room: Path) -> Path:
    """The sources, and what was built of them by hard links."""
    copy = room / "checkout"
    copy.mkdir()
    kept = ["Makefile", "HANDLES", "VERSION", "KIT", "crates.txt", "crates", "tools", "cases"]
    subprocess.run(["cp", "-al", *kept, "examples", "docs", copy], cwd=TOP, check=True)
    return copy


def plant(edit: Edit, copy: Path) -> None:
    file = copy / "crates" / edit.crate / edit.file
    text = file.read_text()
    if text.count(edit.old) != 1:
        sys.exit(f"wrong_mains: {edit.name}: the line does not stand once in {edit.file}")
    file.unlink()  # a hard link to the source
    file.write_text(text.replace(edit.old, edit.new))


def outcome_of(edit: Edit) -> str:
    with tempfile.TemporaryDirectory() as room:
        copy = copy_of_checkout(Path(room))
        plant(edit, copy)
        built = subprocess.run(["make", edit.program], cwd=copy, capture_output=True, text=True)
        program = copy / "crates" / edit.program / "out" / edit.program
        if built.returncode != 0:
            return BY_RUN if was_run(program) else "refused by proof"
        ran = subprocess.run(
            [copy / "tools/check/cases.py", program, edit.case], capture_output=True, text=True
        )
        return BY_CASE if ran.returncode == 1 else "not refused"


def was_run(program: Path) -> bool:
    """Whether the program was proved and built, and failed as it ran."""
    return "rt: running" in (program.parent / "prove.log").read_text()


def main(names: list[str]) -> int:
    if names[:1] == ["--help"]:
        print(__doc__)
        return 0
    if shutil.which("rt") is None:
        sys.exit("wrong_mains: there is no command rt on the PATH, which proves and builds")
    outcomes = []
    for file in sorted(EDITS.glob("*.edit")):
        if not names or file.stem in names:
            outcomes.append(outcome_of(edit_of(file)))
            print(f"{file.stem}: {outcomes[-1]}", flush=True)
    return 0 if outcomes and set(outcomes) <= {BY_CASE, BY_RUN} else 1


if __name__ == "__main__":
    sys.exit(main(sys.argv[1:]))
