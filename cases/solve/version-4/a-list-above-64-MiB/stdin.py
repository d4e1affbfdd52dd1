#!/usr/bin/python3
"""A list of a document of version 4."""
from large import AFTER_1, document, write

write(b"[" + document() + b"]", length=AFTER_1 + 1)
