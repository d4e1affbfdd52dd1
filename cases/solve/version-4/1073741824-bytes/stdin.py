#!/usr/bin/python3
"""A document of version 4 with spaces behind it up to 1,073,741,824 bytes."""
from large import AFTER_3, document, write

write(document(), length=AFTER_3)
