#!/usr/bin/python3
"""A document of version 3 of 67,108,865 bytes, and a post."""
from large import AFTER_1, document, write

write(b"%d\n" % (AFTER_1 + 1))
write(document(version=b"3"), length=AFTER_1 + 1)
write(b"post\n")
