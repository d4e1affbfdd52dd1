#!/usr/bin/python3
"""The table of groups of 16 path groups that ask for nothing."""
from large import numbered, path_groups_of, write_lines

write_lines("table 0", numbered(b"link l# load 0\n", 32), "link d load 0")
for group, places in enumerate(path_groups_of(1000000)):
    write_lines(f"group g{group} share 1 amount 0", numbered(b"place # amount 0 open\n", places))
write_lines(numbered(b"task t# limit 0\n", len(path_groups_of(1000000))), "total 0")
