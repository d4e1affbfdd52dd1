#!/usr/bin/python3
"""The table of 65,536 groups in eight tiers that ask for nothing."""
from large import numbered, write_lines

GROUP = b"group g# share 1 amount 0\nplace 0 amount 0 open\n"
write_lines("tiers 0", *(f"tier {tier}" for tier in range(8)), "link l0 load 0")
write_lines(numbered(GROUP, 65536), numbered(b"task t# limit 0\n", 65536), "total 0")
