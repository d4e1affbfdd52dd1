"""Sending limits for tasks that share a wide-area network, from Python.

    import bwe

    document = bwe.read("examples/geant.json")
    table = bwe.solve(document)
    with bwe.Live(document) as live:
        for change in live.changes(matrices):
            print(change.total)

Documents and tables are dataclasses; rates are whole kilobits per second. Every limit is computed
by the programs `bwe` and `bwe-live`: those that the variables BWE and BWE_LIVE name, else those
built in the repository, else those on the PATH. What goes wrong raises an Error, whose text is one
sentence. docs/RESEARCH.md is the page on this module, docs/FORMAT.md the one on documents.
"""

from bwe.build import document_of, path_groups, with_demands
from bwe.frames import Frames, frames
from bwe.optima import Optimum, Quality, optimum, quality
from bwe.programs import levels, solve
from bwe.readers import read, read_csv, read_graphml, read_matrices, read_sndlib, write
from bwe_tools.convert import Choices
from bwe_tools.document import (
    Closing,
    Document,
    Function,
    Group,
    Job,
    Link,
    Path,
    Report,
    Task,
    User,
)
from bwe_tools.document import ToolError as Error
from bwe_tools.live import Change, Live, UnknownName
from bwe_tools.live_change import TableChange
from bwe_tools.live_program import RefusedReport, TimedOut
from bwe_tools.program import NoProgram, ProgramEnded, Refused
from bwe_tools.questions import askable
from bwe_tools.table import GroupAmount, LinkLoad, PathGroupAmount, Table, TaskLimit

__all__ = [
    "Change",
    "Choices",
    "Closing",
    "Document",
    "Error",
    "Frames",
    "Function",
    "Group",
    "GroupAmount",
    "Job",
    "Link",
    "LinkLoad",
    "Live",
    "NoProgram",
    "Optimum",
    "Path",
    "PathGroupAmount",
    "ProgramEnded",
    "Quality",
    "Refused",
    "RefusedReport",
    "Report",
    "Table",
    "TableChange",
    "Task",
    "TaskLimit",
    "TimedOut",
    "UnknownName",
    "User",
    "askable",
    "document_of",
    "frames",
    "levels",
    "optimum",
    "path_groups",
    "quality",
    "read",
    "read_csv",
    "read_graphml",
    "read_matrices",
    "read_sndlib",
    "solve",
    "with_demands",
    "write",
]
