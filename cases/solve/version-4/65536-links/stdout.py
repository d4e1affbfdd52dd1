#!/usr/bin/python3
"""The table of 65,536 links that nobody uses."""
from large import numbered, write_lines

write_lines("table 0", numbered(b"link l# load 0\n", 65536), "total 0")
