#!/usr/bin/python3
"""The run of 4,096 reporters who send nothing."""
from large import numbered, write_lines

write_lines(
    "history 0",
    numbered(b"reporter r# sent 0\n", 4096),
    "reader 0 length 0",
    "final floor 0 prefix 0 total 0",
    "table 0",
    "link l0 load 0",
    "total 0",
)
