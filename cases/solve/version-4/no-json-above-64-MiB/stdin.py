#!/usr/bin/python3
"""A document of version 4 without its last brace."""
from large import AFTER_1, document, write

write(document()[:-1], length=AFTER_1 + 1)
