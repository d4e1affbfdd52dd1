#!/usr/bin/python3
"""1,048,577 tasks, one more than version 4 has."""
from large import document, one_group, write

write(document(groups=one_group(1048577)))
