#!/usr/bin/python3
"""The table of 65,536 groups that ask for nothing: none is stopped."""
from large import numbered, write_lines

GROUP = b"group g# share 1 amount 0\nplace 0 amount 0 open\n"
TASK = b"task t# limit 0\n"
write_lines("table 0", "link l0 load 0", numbered(GROUP, 65536), numbered(TASK, 65536), "total 0")
