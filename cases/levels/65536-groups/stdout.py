#!/usr/bin/python3
"""What 65,536 groups that ask for nothing may have."""
from large import numbered, write_lines

write_lines("levels 1", numbered(b"level g# 0\n", 65536), "total 0")
