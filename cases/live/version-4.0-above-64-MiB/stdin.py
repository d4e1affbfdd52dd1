#!/usr/bin/python3
"""Version 4.0 is not the whole number 4."""
from large import AFTER_1, document, write

write(b"%d\n" % (AFTER_1 + 1))
write(document(version=b"4.0"), length=AFTER_1 + 1)
write(b"post\n")
