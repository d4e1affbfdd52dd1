#!/usr/bin/python3
"""The version 4 stands behind 64 MiB of spaces, and before them the version 3."""
from large import AFTER_1, document, write

write(document(version=b"3")[:-1], length=AFTER_1)
write(b',"version":4}')
