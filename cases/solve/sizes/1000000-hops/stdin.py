#!/usr/bin/python3
"""1,000,000 links over all paths."""
from large import chains, document, write

links, groups = chains(1000000)
write(document(version=b"1", links=links, groups=groups))
