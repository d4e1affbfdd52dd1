"""The values that an allocator writes, read strictly as the specification has them."""

import re
from dataclasses import dataclass

NUMBER = "(0|[1-9][0-9]{0,19})"
POSTED = re.compile(rf"prefix {NUMBER} document {NUMBER} total {NUMBER}\n".encode())
HEADER = re.compile(rf"prefix {NUMBER} document {NUMBER}".encode())
TASK = re.compile(rf"task ([A-Za-z0-9_.-]{{1,64}}) limit {NUMBER}".encode())


@dataclass(frozen=True)
class Posted:
    prefix: int
    document: int
    total: int


@dataclass(frozen=True)
class Slice:
    prefix: int
    document: int
    limits: dict[str, int]


def posted_of(value: bytes) -> Posted | None:
    """None where the value is not of the form."""
    found = POSTED.fullmatch(value)
    return None if found is None else Posted(*map(int, found.groups()))


def slice_of(value: bytes) -> Slice | None:
    """None where the value is not of the form, or names a task twice."""
    head, *lines = value.split(b"\n")
    found = HEADER.fullmatch(head)
    if found is None or not lines or lines.pop() != b"":
        return None
    limits = {}
    for line in lines:
        task = TASK.fullmatch(line)
        if task is None or task[1].decode() in limits:
            return None
        limits[task[1].decode()] = int(task[2])
    return Slice(int(found[1]), int(found[2]), limits)
