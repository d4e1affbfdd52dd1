#!/usr/bin/python3
"""1,025 groups, and of two versions the last is 4."""
from large import document, groups, write

members = document(groups=groups(1025), version=None)[1:-1]
write(b'{"version":1,' + members + b',"version":4}')
