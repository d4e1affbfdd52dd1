#!/usr/bin/python3
"""1,025 groups, and the last version is 4 under a key with escapes."""
from large import document, groups, write

members = document(groups=groups(1025), version=None)[1:-1]
write(b'{"version":3,' + members + b',"\\u0076ersio\\u006e":4}')
