#!/usr/bin/python3
"""The run of 4,194,304 reports of one reporter, whose one reader reads at the end alone."""
from large import numbered, write_lines

write_lines(
    "history 4194304",
    numbered(b"report # r0 t0 1\n", 4194304),
    "reporter r0 sent 4194304",
    "reader 0 length 4194304",
    "final floor 4194304 prefix 4194304 total 1",
    "table 4194304",
    "link l0 load 1",
    "group g0 share 1 amount 1",
    "place 0 amount 1 open",
    "task t0 limit 1",
    "total 1",
)
