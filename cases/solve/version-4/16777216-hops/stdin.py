#!/usr/bin/python3
"""16,777,216 links over all paths."""
from large import chains, document, write

links, groups = chains(16777216)
write(document(links=links, groups=groups))
