#!/usr/bin/python3
"""The last version is 3, behind 64 MiB of spaces."""
from large import AFTER_1, document, write

write(document()[:-1], length=AFTER_1)
write(b',"version":3}')
