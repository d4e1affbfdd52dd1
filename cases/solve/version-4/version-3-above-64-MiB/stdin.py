#!/usr/bin/python3
"""A document of version 3 with spaces behind it up to 67,108,865 bytes."""
from large import AFTER_1, document, write

write(document(version=b"3"), length=AFTER_1 + 1)
