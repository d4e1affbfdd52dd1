#!/usr/bin/python3
"""A document of version 1 with spaces behind it up to 67,108,864 bytes."""
from large import AFTER_1, document, write

write(document(version=b"1"), length=AFTER_1)
