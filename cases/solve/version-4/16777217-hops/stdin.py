#!/usr/bin/python3
"""16,777,217 links over all paths, one more than version 4 has."""
from large import chains, document, write

links, groups = chains(16777217)
write(document(links=links, groups=groups))
