#!/usr/bin/python3
"""65,536 groups of one task each, in eight tiers."""
from large import document, groups, parts, write

write(parts(document(groups=groups(65536)), b"01234567" * 8192 + b"\n"))
