#!/usr/bin/python3
"""1,000,001 links over all paths."""
from large import chains, document, write

links, groups = chains(1000001)
write(document(version=b"1", links=links, groups=groups))
