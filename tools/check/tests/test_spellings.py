"""Long documents, spelled by chance: with threads and without they have one answer."""

import json
from pathlib import Path

import pytest

import spellings

built = pytest.mark.skipif(
    not (Path(spellings.BWE).is_file() and Path(spellings.BWE_LIVE).is_file()),
    reason="the programs are not built",
)


@built
def test_a_document_is_long_however_it_is_spelled():
    document = spellings.made(1)
    for style in spellings.STYLES:
        assert len(json.dumps(document, **style)) > spellings.LONG


@built
@pytest.mark.parametrize("seed", range(8))
def test_threads_change_no_answer(seed):
    assert spellings.agrees(spellings.spelled(seed))
