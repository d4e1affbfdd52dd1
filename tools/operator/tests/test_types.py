"""The types of the tools and of the module, by Debian's mypy."""

import shutil
import subprocess
from pathlib import Path

import pytest

OPERATOR = Path(__file__).resolve().parents[1]


@pytest.mark.skipif(shutil.which("mypy") is None, reason="there is no mypy")
def test_types_are_strict(tmp_path):
    words = ["mypy", "--config-file", "mypy.ini", "--cache-dir", str(tmp_path), "bwe", "bwe_tools"]
    ran = subprocess.run(
        words, cwd=OPERATOR, capture_output=True, text=True, timeout=600, check=False
    )
    assert ran.returncode == 0, ran.stdout + ran.stderr
