#!/usr/bin/python3
"""1,025 groups of version 5: the limits are those of versions 1 to 3, and come first."""
from large import document, groups, write

members = document(groups=groups(1025), version=None)[1:-1]
write(b'{"version":5,' + members + b"}")
