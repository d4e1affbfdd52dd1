#!/usr/bin/python3
"""A document of version 4 of 67,108,865 bytes, and a post."""
from large import AFTER_1, document, write

write(b"%d\n" % (AFTER_1 + 1))
write(document(), length=AFTER_1 + 1)
write(b"post\n")
