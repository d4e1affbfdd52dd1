"""The program `bwe` on documents."""

from __future__ import annotations

from bwe_tools import program
from bwe_tools.document import Document, document_text
from bwe_tools.table import Table


def solve(document: Document) -> Table:
    """The table of a document: `bwe solve`, a process for each call. Refused where bwe refuses the
    document, NoProgram where there is none, ProgramEnded where it gives no answer.
    """
    return program.solve(_bytes(document))


def levels(document: Document, share: int) -> dict[str, int]:
    """What each group may have at a share in kb/s, whatever links carry: `bwe levels`."""
    return program.values_at(share, _bytes(document))


def _bytes(document: Document) -> bytes:
    return document_text(document).encode()
