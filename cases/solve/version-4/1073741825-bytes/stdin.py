#!/usr/bin/python3
"""A document of version 4 with spaces behind it, a byte more than is read."""
from large import AFTER_3, document, write

write(document(), length=AFTER_3 + 1)
