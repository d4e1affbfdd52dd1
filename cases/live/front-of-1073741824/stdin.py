#!/usr/bin/python3
"""The greatest number in front, and nothing behind it."""
from large import AFTER_3, write

write(b"%d\n" % AFTER_3)
