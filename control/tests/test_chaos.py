"""Some chaos on each store by a fixed seed, with all kinds of faults: the judge finds nothing."""

from __future__ import annotations

import os
import subprocess
import sys
from pathlib import Path

import pytest

from chaos.errors import NotHere
from chaos.mutants import mutants
from chaos.runs import STORES, check

CONTROL = Path(__file__).resolve().parents[1]
SEED, LENGTH = "4", ("--seconds", "45")


@pytest.mark.parametrize("store", STORES)
def test_chaos_finds_nothing(store):
    try:
        check(STORES)
    except NotHere as fault:
        pytest.skip(str(fault))
    ran = subprocess.run(
        [sys.executable, "-m", "chaos", "run", "--store", store, "--seed", SEED, *LENGTH],
        env={**os.environ, "PYTHONPATH": str(CONTROL)},
        capture_output=True,
        text=True,
        timeout=900,
    )
    assert ran.returncode == 0, ran.stdout + ran.stderr
    assert ran.stdout.count("legal\n") == 1


@pytest.mark.parametrize("mutant", mutants(()), ids=lambda it: it.name)
def test_each_broken_allocator_is_an_edit_of_what_stands(mutant, tmp_path):
    mutant.make(CONTROL.parent, tmp_path)
