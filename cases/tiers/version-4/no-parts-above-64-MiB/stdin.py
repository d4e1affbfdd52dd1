#!/usr/bin/python3
"""A document of version 4 of more than 64 MiB without the line in front."""
from large import AFTER_1, document, write

write(document(), length=AFTER_1 + 1)
