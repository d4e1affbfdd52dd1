#!/usr/bin/python3
"""A document of version 3 in two parts of more than 64 MiB."""
from large import AFTER_1, document, one_group, parts, write

write(parts(document(version=b"3", groups=one_group()), b"0\n"), length=AFTER_1 + 1)
