#!/usr/bin/python3
"""What begins and ends as a document of version 4, above 64 MiB, and is no JSON."""
from large import AFTER_1, document, write

write(document()[:-1], length=AFTER_1)
write(b",}")
