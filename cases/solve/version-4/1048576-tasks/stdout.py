#!/usr/bin/python3
"""The table of 1,048,576 tasks that ask for nothing."""
from large import numbered, write_lines

GROUP = ["group g0 share 1 amount 0", "place 0 amount 0 open"]
write_lines("table 0", "link l0 load 0", *GROUP, numbered(b"task t# limit 0\n", 1048576), "total 0")
