#!/usr/bin/python3
"""A document of version 4 with spaces behind it up to 67,108,865 bytes."""
from large import AFTER_1, document, write

write(document(), length=AFTER_1 + 1)
