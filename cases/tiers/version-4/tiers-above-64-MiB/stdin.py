#!/usr/bin/python3
"""A document of version 4 in two parts, whose second part makes it too long for one of version 3."""
from large import AFTER_1, document, one_group, parts, write

write(parts(document(groups=one_group()), b"0\n"), length=AFTER_1 + 1)
