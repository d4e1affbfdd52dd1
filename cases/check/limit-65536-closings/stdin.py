#!/usr/bin/python3
"""A document of version 4 that names 65,536 closings of a link that nobody uses."""
from large import document, repeated, write

closing = b'{"link":"l0","share":0}'
write(document(closings=repeated(closing, 65536)))
