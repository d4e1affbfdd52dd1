#!/usr/bin/python3
"""No version, but that of an object in another one."""
from large import AFTER_1, document, write

write(document(version=None, links=b'[{"version":4}]'), length=AFTER_1 + 1)
