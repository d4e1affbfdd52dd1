#!/usr/bin/python3
"""A document of version 3, a byte more than is read of any."""
from large import AFTER_3, document, write

write(document(version=b"3"), length=AFTER_3 + 1)
