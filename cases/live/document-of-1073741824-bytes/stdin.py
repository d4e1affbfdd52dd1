#!/usr/bin/python3
"""A document of version 4 of as many bytes as any has, and a post."""
from large import AFTER_3, document, write

write(b"%d\n" % AFTER_3)
write(document(), length=AFTER_3)
write(b"post\n")
