#!/usr/bin/python3
"""A document of version 4 that has no links, of 67,108,865 bytes: it gets its usual refusal."""
from large import AFTER_1, document, write

write(document(links=None), length=AFTER_1 + 1)
