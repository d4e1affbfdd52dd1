#!/usr/bin/python3
"""A number in front above that of any document."""
from large import AFTER_3, document, write

write(b"%d\n" % (AFTER_3 + 1), document())
