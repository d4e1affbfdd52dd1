#!/usr/bin/python3
"""1,048,576 tasks of one job; nothing is asked for."""
from large import document, one_group, write

write(document(groups=one_group(1048576)))
