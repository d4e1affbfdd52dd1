#!/usr/bin/python3
"""65,537 groups, one more than version 4 has."""
from large import document, groups, write

write(document(groups=groups(65537)))
