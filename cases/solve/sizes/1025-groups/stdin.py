#!/usr/bin/python3
"""1,025 groups of one task each, over one link; nothing is asked for."""
from large import document, groups, write

write(document(version=b"1", groups=groups(1025)))
