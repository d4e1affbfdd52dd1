#!/usr/bin/python3
"""1,025 groups, and behind them the version 4."""
from large import document, groups, write

members = document(groups=groups(1025), version=None)[1:-1]
write(b"{" + members + b',"version":4}')
