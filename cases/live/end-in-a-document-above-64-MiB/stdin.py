#!/usr/bin/python3
"""The input ends a byte before a document of version 4 does, whose number is 67,108,865."""
from large import AFTER_1, document, write

write(b"%d\n" % (AFTER_1 + 1))
write(document(), length=AFTER_1)
