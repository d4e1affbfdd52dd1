#!/usr/bin/python3
"""A document that has no links, with its version 4 and its last brace at the ends of 64 MiB: it is
read before its length is judged, and gets its usual refusal."""
from large import AFTER_1, document, write

write(document(links=None)[:-1], length=AFTER_1)
write(b"}")
