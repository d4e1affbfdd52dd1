#!/usr/bin/python3
"""65,536 groups of one task each, over one link; nothing is asked for."""
from large import document, groups, write

write(document(groups=groups(65536)))
