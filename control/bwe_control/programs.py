"""Finds the proved programs: those that a variable names, of this repository, or on the PATH."""

from __future__ import annotations

import os
import shutil
import subprocess
from pathlib import Path

from bwe_control.errors import ControlError, InputError, Refused

ROOT = Path(__file__).resolve().parents[2]
VARIABLES = {"bwe": "BWE", "bwe-live": "BWE_LIVE"}
CRATES = {"bwe": "bwe", "bwe-live": "bwe_live"}


def find_program(name: str) -> Path:
    """The program `bwe` or `bwe-live`; the launcher of a repository builds it first."""
    variable, crate = VARIABLES[name], CRATES[name]
    if given := os.environ.get(variable):
        if os.access(given, os.X_OK) and Path(given).is_file():
            return Path(given)
        raise InputError(f"{variable} names {given}, which is no program that can be run")
    on_path = shutil.which(name)
    places = [
        ROOT / "programs" / crate,
        ROOT / "crates" / crate / "out" / crate,
        ROOT / name,
        Path(on_path or name),
    ]
    for path in places:
        if path.is_file() and os.access(path, os.X_OK):
            return path
    raise InputError(f"there is no program {name}: build it, or name it in the variable {variable}")


def check_document(text: bytes) -> None:
    """Refused with the program's own line where `bwe` refuses the document."""
    run_bwe(["levels", "0"], text)


def run_bwe(words: list[str], given: bytes) -> bytes:
    """What `bwe` answers; Refused with its line where it refuses what is given."""
    program = find_program("bwe")
    try:
        ran = subprocess.run([program, *words], input=given, stdout=subprocess.PIPE, check=False)
    except OSError as fault:
        raise InputError(f"{program} could not be run: {fault.strerror}") from None
    if ran.returncode in (3, 8):
        raise Refused(ran.stdout.decode("ascii", "replace").strip())
    if ran.returncode:
        raise ControlError(f"{program} {' '.join(words)} ended with exit status {ran.returncode}")
    return ran.stdout
