"""Says which package of Debian to install where a command misses a module."""

from __future__ import annotations

import sys
from collections.abc import Iterator
from contextlib import contextmanager
from pathlib import Path

PACKAGES = Path(__file__).resolve().parents[2] / "packages.txt"


def sentence(missing: ModuleNotFoundError) -> str:
    """What to install, by the table of packages; the error again where the table has no row."""
    module = (missing.name or "").partition(".")[0]
    for row in PACKAGES.read_text(encoding="utf-8").splitlines():
        words = row.split()
        if words and words[0] != "#" and words[1] == module:
            return f"this needs the package {words[0]}: apt-get install {words[0]}"
    raise missing


@contextmanager
def told(name: str) -> Iterator[None]:
    """Ends with the sentence and exit status 2 where a module is missing."""
    try:
        yield
    except ModuleNotFoundError as missing:
        print(f"{name}: {sentence(missing)}", file=sys.stderr)
        sys.exit(2)
