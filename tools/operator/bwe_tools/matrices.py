"""Demand matrices of a CSV file, many in one file."""

from __future__ import annotations

from bwe_tools.document import Document, ToolError
from bwe_tools.network import rate
from bwe_tools.rows import cell, rows

Matrix = dict[str, int]  # demands in kb/s by task
COLUMNS = ("matrix", "task", "from", "to", "demand")


def read_matrices(path: str, document: Document, unit: str = "k") -> dict[str, Matrix]:
    """The matrices of a file by name, in the order in which they come.

    A row has the columns `matrix`, `demand` in kb/s or with a unit, and `task`, or `from` and `to`
    where one task alone goes from site to site. In a matrix a task without a row wants nothing.
    """
    tasks = [task.name for task in document.tasks()]
    between = _tasks_between(document)
    known, found = set(tasks), dict[str, Matrix]()
    for where, row in rows(path, ("matrix", "demand"), COLUMNS):
        name = cell(row, "matrix", where)
        matrix = found.setdefault(name, dict.fromkeys(tasks, 0))
        task = row["task"] if "task" in row else _only_task(row, between, where)
        if task not in known:
            raise ToolError(f"{where}: the document has no task {task}")
        matrix[task] = rate(cell(row, "demand", where), where, unit)
    if not found:
        raise ToolError(f"{path} has no matrices")
    return found


def _tasks_between(document: Document) -> dict[tuple[str, str], list[str]]:
    found: dict[tuple[str, str], list[str]] = {}
    for group in document.groups:
        found.setdefault((group.source, group.target), []).extend(
            task.name for task in group.tasks()
        )
    return found


def _only_task(row: dict[str, str], between: dict[tuple[str, str], list[str]], where: str) -> str:
    ends = cell(row, "from", where), cell(row, "to", where)
    tasks = between.get(ends, [])
    if len(tasks) != 1:
        raise ToolError(
            f"{where}: {len(tasks) or 'no'} tasks go from {ends[0]} to {ends[1]}; name one in a"
            ' column "task"'
        )
    return tasks[0]
