#!/usr/bin/python3
"""The table of 1,025 groups that ask for nothing."""
from large import numbered, write_lines

GROUP = b"group g# share 1 amount 0\nplace 0 amount 0 open\n"
TASK = b"task t# limit 0\n"
write_lines("table 0", "link l0 load 0", numbered(GROUP, 1025), numbered(TASK, 1025), "total 0")
