"""Lets the tests of tools/ import what they test, and how the operator's tools are run."""

import sys
from pathlib import Path

HERE = Path(__file__).resolve().parent
sys.path[:0] = [
    str(HERE / folder) for folder in ("operator", "operator/tests", "build", "check", "bench")
]
